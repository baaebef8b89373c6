"""How far a tool is: one line on standard error, if that is a terminal and the work takes more than two seconds.

    with progress.shown('mine.capture', is_quiet=True) as line:
        for k, step in enumerate(steps):
            line.part = k / len(steps)

A thread draws the line, so the work itself only sets `part`, or nothing: `following` asks the system how far a file has
been read, by this process or by a player that has it as standard input.
"""
import contextlib
import os
import sys
import threading
import time
from typing import IO, Callable, Iterator, List, Optional, Sequence, TypeVar

FIRST, EACH = 2.0, 0.25         # seconds before the line appears, and between two drawings
ERASE = '\r\x1b[K'
Item = TypeVar('Item')


class Line:
    """A line that is drawn until its block ends. `part`: how much is done, from 0 to 1, or None."""

    def __init__(self, text: str) -> None:
        self.text, self.part = text, None   # type: str, Optional[float]
        self.measure: Optional[Callable[[], float]] = None
        self.ended = threading.Event()
        self.start = time.monotonic()

    def words(self) -> str:
        """Returns the line: what is done, the share of it, and the time that is left or was taken."""
        seconds = time.monotonic() - self.start
        part = self.measure() if self.measure else self.part
        if not part:
            return '%s: %d:%02d' % (self.text, seconds // 60, seconds % 60)
        left = seconds * (1 - part) / part
        return '%s: %d %%, %d:%02d left' % (self.text, 100 * part, left // 60, left % 60)

    def draw(self) -> None:
        """Draws the line again and again until the block ends."""
        wait, is_drawn = FIRST, False
        while not self.ended.wait(wait):
            wait, is_drawn = EACH, True
            self.write(ERASE + self.words())
        if is_drawn:
            self.write(ERASE)

    @staticmethod
    def write(text: str) -> None:
        """Writes to standard error, if that is still possible."""
        with contextlib.suppress(OSError, ValueError):
            sys.stderr.write(text)
            sys.stderr.flush()


SHOWN: List[Line] = []          # the line that is drawn: one at most


def is_wanted(is_quiet: bool) -> bool:
    """Returns whether a line can be drawn. `is_quiet`: nothing goes to standard output meanwhile."""
    return bool(sys.stderr and sys.stderr.isatty() and (is_quiet or not (sys.stdout and sys.stdout.isatty())))


@contextlib.contextmanager
def shown(text: str, is_quiet: bool = False) -> Iterator[Line]:
    """Shows a line while the block runs. If one is there already, the block sets the part of that one."""
    line = SHOWN[0] if SHOWN else Line(text)
    if SHOWN or not is_wanted(is_quiet):
        yield line
        return
    thread = threading.Thread(target=line.draw, daemon=True)
    SHOWN.append(line)
    thread.start()
    try:
        yield line
    finally:
        SHOWN.remove(line)
        line.ended.set()
        thread.join()


@contextlib.contextmanager
def following(file: IO[bytes], text: str) -> Iterator[None]:
    """Shows how far a file of the disk has been read, in a line of its own or as the part of the line that is there."""
    size = 0
    with contextlib.suppress(OSError, ValueError, AttributeError):
        size = os.fstat(file.fileno()).st_size
    with shown(text) as line:
        if not size or line.measure or line.part is not None:
            yield
            return
        number = file.fileno()

        def measure() -> float:
            with contextlib.suppress(OSError):
                return min(1.0, os.lseek(number, 0, os.SEEK_CUR) / size)
            return 0.0
        line.measure = measure
        try:
            yield
        finally:
            line.measure = None


def counted(items: Sequence[Item], text: str, is_quiet: bool = False) -> Iterator[Item]:
    """Returns the items one by one, and shows how many of them are done."""
    with shown(text, is_quiet) as line:
        for done, item in enumerate(items):
            line.part = done / len(items)
            yield item
        line.part = None
