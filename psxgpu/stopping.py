"""How a run ends that is stopped from outside: by Ctrl-C, or by a request to end (SIGTERM).

The players that run are ended first, so nothing waits for them. Then `Stopped` is raised, and what was begun is removed
on its way out.
"""
import contextlib
import os
import signal
import subprocess
import tempfile
import threading
import types
from typing import IO, Any, Dict, Iterator, List, Optional, Set

SIGNALS = (signal.SIGINT, signal.SIGTERM)
FIRST_STATUS = 128          # the status of a run that a signal ended is this plus the number of the signal
RUNNING: Set["subprocess.Popen[bytes]"] = set()
HELD: List[List[int]] = []  # for each block of `held`: the signals that came in it
SHARED: List[bool] = []     # not empty in a process that a tool starts of itself: what it starts ends with it


class Stopped(KeyboardInterrupt):
    """The run was stopped. `number`: of the signal. Its text is the line that the user sees."""

    def __init__(self, number: int = signal.SIGINT, text: str = 'interrupted') -> None:
        super().__init__(text)
        self.number = number


def share_session() -> None:
    """Lets the processes that this one starts be of its own session: whoever ends the session ends all of them."""
    SHARED.append(True)


def kill(child: "subprocess.Popen[bytes]") -> None:
    """Ends a process and what it started, which is a session of its own unless the session is shared."""
    with contextlib.suppress(ProcessLookupError, PermissionError):
        if SHARED:
            child.kill()
        else:
            os.killpg(child.pid, signal.SIGKILL)


def end(child: "subprocess.Popen[bytes]") -> None:
    """Ends a process and what it started, and closes its pipes."""
    kill(child)
    child.wait()
    for pipe in filter(None, (child.stdin, child.stdout, child.stderr)):
        with contextlib.suppress(OSError):
            pipe.close()


@contextlib.contextmanager
def held() -> Iterator[None]:
    """Lets a signal that comes in the block raise `Stopped` at its end."""
    if threading.current_thread() is not threading.main_thread():       # no signal is handled there
        yield
        return
    HELD.append([])
    try:
        yield
    finally:
        came = HELD.pop()
        if came:
            stop(came[0], None)


@contextlib.contextmanager
def scratch() -> Iterator[IO[bytes]]:
    """A file without a name. It is closed at the end, even if the run is stopped while it is made."""
    with contextlib.ExitStack() as stack:
        with held():
            file = stack.enter_context(tempfile.TemporaryFile(prefix='psxgpu'))
        yield file


@contextlib.contextmanager
def session(words: List[str], **settings: Any) -> Iterator["subprocess.Popen[bytes]"]:
    """A process that is a session of its own, so Ctrl-C does not reach it. It is ended if the block raises, or if the
    run is stopped. The block waits for its end."""
    child: Optional["subprocess.Popen[bytes]"] = None
    try:
        with held():
            child = subprocess.Popen(words, start_new_session=not SHARED,       # pylint: disable=consider-using-with
                                     **settings)
            RUNNING.add(child)
        yield child
    except BaseException:
        if child:
            end(child)
        raise
    finally:
        if child:
            RUNNING.discard(child)


def stop(number: int, _: Optional[types.FrameType]) -> None:
    """Handles a signal. A second one ends the process at once."""
    if HELD and not HELD[-1]:
        HELD[-1].append(number)
        return
    for each in SIGNALS:
        signal.signal(each, signal.SIG_DFL)
    for child in list(RUNNING):
        kill(child)
    raise Stopped(number)


@contextlib.contextmanager
def stoppable() -> Iterator[None]:
    """Lets the signals raise `Stopped` within the block, unless they are ignored."""
    before: Dict[signal.Signals, Any] = {}
    with contextlib.suppress(ValueError):       # not in the main thread
        for number in SIGNALS:
            if signal.getsignal(number) is not signal.SIG_IGN:
                before[number] = signal.signal(number, stop)
    try:
        yield
    finally:
        for number, handler in before.items():
            signal.signal(number, handler)
