"""Finds psxgpu_tool and runs it: whatever the tools know of a capture beyond its records is the program's answer."""
import argparse
import contextlib
import os
import shutil
import subprocess
import sys
from typing import IO, Iterator, List, Optional, Union

from psxgpu import progress
from psxgpu.command import BLOCK, ToolError, decimal
from psxgpu.output import Command
from psxgpu.players import by_library
from psxgpu.stopping import scratch, session

TOP = os.path.dirname(os.path.dirname(os.path.dirname(os.path.abspath(__file__))))
BUILT = os.path.join(TOP, 'crates', 'psxgpu_tool', 'out', 'psxgpu_tool')
USAGE, REFUSED = 1, 2


def argument(parser: argparse.ArgumentParser) -> None:
    """Adds the argument that names psxgpu_tool."""
    parser.add_argument('--player', type=Command, metavar='PROGRAM',
                        help='psxgpu_tool to use (default: that of $PLAYER, of the path, or of the checkout)')


def seconds_argument(parser: argparse.ArgumentParser, default: int = 60) -> None:
    """Adds the argument that limits the time of a player."""
    parser.add_argument('--seconds', type=decimal(1, 86400), default=default, metavar='N',
                        help='for one run of a player (default: %(default)s)')


def program_of(name: str, origin: str) -> str:
    """Returns the path of a program that is named. Raises ToolError if it is none."""
    path = shutil.which(name)
    if path is None:
        raise ToolError('%s: not a program' % (origin + name))
    return path


def is_named(given: Optional[str]) -> bool:
    """Returns whether a program is named, by an argument or by $PLAYER."""
    return bool(given or os.environ.get('PLAYER'))


def find_program(given: Optional[str] = None) -> str:
    """Returns the path of the program: `given`, that of $PLAYER, of the path, or of the checkout. Raises ToolError if
    the one that is named is not there, or if there is none."""
    if given:
        return program_of(given, '')
    named = os.environ.get('PLAYER')
    if named:
        return program_of(named, 'PLAYER=')
    path = shutil.which('psxgpu_tool') or shutil.which(BUILT)
    if path is None:
        hint = 'build it with `make run`' if os.path.isdir(os.path.dirname(os.path.dirname(BUILT))) else 'install it'
        raise ToolError('psxgpu_tool is not on the path: %s, or name it with --player' % hint)
    return path


def find(given: Optional[str] = None) -> str:
    """Returns the path of what `playing` starts: the program, or, if none is named or there, what plays by the library.
    Raises ToolError as `find_program` does, if there is no library either."""
    try:
        return find_program(given)
    except ToolError:
        if is_named(given) or not by_library.is_there():
            raise
        return by_library.__file__


def is_library(player: str) -> bool:
    """Returns whether what `find` returned plays by the library."""
    return player == by_library.__file__


def started(player: str) -> List[str]:
    """Returns the words that start a program, given what `find` returned."""
    return [sys.executable, player] if is_library(player) else [player]


def failure(status: int, err: bytes) -> str:
    """Returns the first line of a run that did not end with 0."""
    lines = err.decode(errors='replace').splitlines()
    return lines[0] if lines else 'status %d, without a message' % status


class Run:
    """One run of the program on a file, or on what another run writes. `out` is what it writes, to be read as it comes.
    `err`: the file of standard error."""

    def __init__(self, child: 'subprocess.Popen[bytes]', err: IO[bytes]) -> None:
        assert child.stdout is not None
        self.child, self.err, self.out = child, err, child.stdout

    def end(self) -> int:
        """Waits for the end. Returns the status."""
        self.out.close()
        return self.child.wait()

    def said(self) -> bytes:
        """Returns what is on standard error, after the end."""
        self.err.seek(0)
        return self.err.read()

    def expect_whole(self) -> None:
        """Waits for the end. Raises ToolError if the status is not 0."""
        status = self.end()
        if status:
            raise ToolError(failure(status, self.said()))


@contextlib.contextmanager
def playing(player: str, words: List[str], source: Union[str, IO[bytes]]) -> Iterator[Run]:
    """A run that ends with the block. `source`: a path, or a file. A ToolError of the block because a program that does
    not know the command wrote nothing becomes what the program said."""
    with contextlib.ExitStack() as stack:
        file = stack.enter_context(open(source, 'rb')) if isinstance(source, str) else source
        stack.enter_context(progress.following(file, source if isinstance(source, str) else 'psxgpu_tool'))
        err = stack.enter_context(scratch())
        try:
            child = stack.enter_context(session([*started(player), *words], stdin=file, stdout=subprocess.PIPE,
                                                stderr=err))
        except OSError as error:
            raise ToolError('%s: %s' % (player, error.strerror)) from error
        run = Run(child, err)
        try:
            yield run
        except ToolError as why:
            if not run.out.closed and not run.out.read(1) and run.child.wait() == USAGE:
                raise ToolError(failure(USAGE, run.said())) from why
            raise
        finally:
            run.out.close()
            if run.child.poll() is None:
                run.child.terminate()
            run.child.wait()


def answer(player: str, words: List[str], path: str) -> bytes:
    """Returns what a run writes on standard output. Its status does not matter."""
    with playing(player, words, path) as run:
        return run.out.read()


def refusal(player: str, path: str) -> str:
    """Returns the line with which the program refuses a capture; empty if it plays it."""
    with playing(player, ['play'], path) as run:
        while run.out.read(BLOCK):
            pass
        status = run.end()
        return failure(status, run.said()) if status else ''
