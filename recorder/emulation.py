"""Runs the emulator, and ends it whatever happens."""
import argparse
import contextlib
import ctypes
import os
import signal
import subprocess
import tempfile
from typing import Any, Dict, Iterator, List, NamedTuple

from failure import Bad, Ended
from pcsxr_home import prepare
from surroundings import environment

SIGNALS = signal.SIGINT, signal.SIGTERM, signal.SIGHUP
PR_SET_PDEATHSIG = 1
PATIENCE = 5        # seconds in which a process has to end by itself


class Outcome(NamedTuple):
    """What the emulator said, as lines; whether it ended in time; the signal that ended `record`, or 0."""
    said: List[str]
    in_time: bool
    signal: int


def end_with_parent() -> None:
    """For a child: it gets SIGTERM when `record` is killed, and no signal of the terminal."""
    os.setsid()
    with contextlib.suppress(OSError, AttributeError):
        ctypes.CDLL(None).prctl(PR_SET_PDEATHSIG, signal.SIGTERM)


def end(process: 'subprocess.Popen[bytes]') -> None:
    """Ends a process that we started: by SIGTERM, and then by SIGKILL."""
    if process.poll() is None:
        process.send_signal(signal.SIGTERM)
        try:
            process.wait(PATIENCE)
        except subprocess.TimeoutExpired:
            process.kill()
            process.wait()


@contextlib.contextmanager
def running(command: List[str], **settings: Any) -> Iterator['subprocess.Popen[bytes]']:
    """A process that is ended with the block."""
    process = subprocess.Popen(command, preexec_fn=end_with_parent, **settings)
    try:
        yield process
    finally:
        end(process)


@contextlib.contextmanager
def screen(xvfb: str) -> Iterator[str]:
    """The name of a screen that nobody sees."""
    read, write = os.pipe()
    command = [xvfb, '-displayfd', str(write), '-screen', '0', '1024x768x24', '-nolisten', 'tcp']
    silent = {'stdout': subprocess.DEVNULL, 'stderr': subprocess.DEVNULL}
    with os.fdopen(read) as file, running(command, pass_fds=[write], **silent) as process:
        os.close(write)
        number = file.readline().strip()
        if not number:
            raise Bad('Xvfb does not start (status %d)' % process.wait())
        yield ':' + number


@contextlib.contextmanager
def handing_on(process: 'subprocess.Popen[bytes]') -> Iterator[None]:
    """SIGUSR1 is handed on to the emulator, as it begins and ends recordings there."""
    before = signal.signal(signal.SIGUSR1, lambda number, _: process.send_signal(number))
    try:
        yield
    finally:
        signal.signal(signal.SIGUSR1, before)


def on_signal(number: int, _: object) -> None:
    """A signal that ends `record`. Another one changes nothing: the emulator is ending."""
    for each in SIGNALS:
        signal.signal(each, signal.SIG_IGN)
    raise Ended(number)


def ends_in_time(process: 'subprocess.Popen[bytes]', seconds: float) -> bool:
    """Waits for the end of the emulator. Returns whether it came in time."""
    try:
        process.wait(seconds)
    except subprocess.TimeoutExpired:
        return False
    return True


def is_program(path: str) -> bool:
    """Returns whether a file is a PS-X EXE, and not the image of a disc."""
    with open(path, 'rb') as file:
        return file.read(8) == b'PS-X EXE'


def emulate(found: Dict[str, str], arguments: argparse.Namespace) -> Outcome:
    """Runs the program until FRAMES are recorded, the time is over, or a signal comes."""
    number, in_time = 0, True
    with tempfile.TemporaryDirectory(prefix='psxgpu_record.') as home, tempfile.TemporaryFile() as said:
        prepare(home, found, arguments)
        surroundings = environment(home, found, arguments)
        disc = [] if is_program(arguments.program) else ['-cdfile']
        command = [found['pcsxr'], '-nogui', *disc, os.path.abspath(arguments.program)]
        try:
            with contextlib.ExitStack() as stack:
                if not arguments.screen:
                    surroundings['DISPLAY'] = stack.enter_context(screen(found['Xvfb']))
                emulator = stack.enter_context(running(command, env=surroundings, stdin=subprocess.DEVNULL,
                                                       stdout=said, stderr=said))
                stack.enter_context(handing_on(emulator))
                in_time = ends_in_time(emulator, arguments.seconds)
        except Ended as ended:
            number = ended.number
        said.seek(0)
        return Outcome(said.read().decode(errors='replace').splitlines(), in_time, number)
