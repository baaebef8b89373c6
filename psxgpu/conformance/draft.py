"""A test while it is written: its capture, and what has to come out of it."""
from __future__ import annotations

from dataclasses import dataclass
from typing import Dict, Iterable, List, Optional, Sequence, Set, Tuple, Union

from psxgpu.capture import Capture, drawing_area, flat, load
from psxgpu.vram import WIDTH

HEIGHT = 512
Words = Union[int, Iterable[int]]
Box = Tuple[int, int, int, int]             # x, y, width, height
Place = Tuple[int, int]


def rgb(color: int) -> int:
    """Returns the cell of a colour of 24 bits, red the lowest byte; bit 15 is 0."""
    return (color & 0xFF) >> 3 | (color >> 8 & 0xFF) >> 3 << 5 | (color >> 16 & 0xFF) >> 3 << 10


def cell(red: int, green: int, blue: int, mask: int = 0) -> int:
    """Returns a cell from channels of 5 bits."""
    return red | green << 5 | blue << 10 | mask << 15


@dataclass
class Expected:
    """A word that has to be read, in the bits of the mask."""
    word: int
    mask: int = 0xFFFFFFFF

    def agrees(self, word: int) -> bool:
        """Returns whether a word that was read is this one."""
        return not (word ^ self.word) & self.mask

    def __str__(self) -> str:
        return '%08x' % self.word if self.mask == 0xFFFFFFFF else '%08x in the bits %08x' % (self.word, self.mask)


@dataclass
class Picture:
    """A picture that has to be shown: three bytes a pixel."""
    width: int
    height: int
    pixels: bytes


class Draft:
    """A test that is being written. Cells that it does not mention have to be 0000h.

    `subject`: the words that the test is about; `about`: the numbers of their records, from 0. `ignored`: cells whose
    value does not matter. `looked_at`: the box that a page shows; without it, the cells that are expected."""

    def __init__(self, version: int = 1, rows: int = HEIGHT) -> None:
        self.capture = Capture(version)
        self.rows = rows
        self.cells: Dict[Place, int] = {}
        self.words: List[Expected] = []
        self.subject: List[int] = []
        self.about: Set[int] = set()
        self.picture: Optional[Picture] = None
        self.wants_no_picture = False
        self.looked_at: Optional[Box] = None
        self.ignored: Set[Place] = set()

    # What the machine is given.

    def before(self, *packets: Words) -> None:
        """Adds words that prepare the test."""
        self.capture.gp0(*packets)

    def packet(self, *packets: Words) -> None:
        """Adds words that the test is about. A failure shows them."""
        first = len(self.capture.records)
        self.subject += flat(packets)
        self.capture.gp0(*packets)
        self.about.update(range(first, len(self.capture.records)))

    def open(self, x1: int = 0, y1: int = 0, x2: int = WIDTH - 1, y2: int = HEIGHT - 1) -> None:
        """Sets the drawing area: all of video memory unless corners are given."""
        self.before(drawing_area(x1, y1, x2, y2))

    def gp1(self, *words: Words) -> None:
        """Adds words for GP1."""
        self.capture.gp1(*words)

    def given(self, x: int, y: int, width: int, cells: Sequence[int]) -> None:
        """Loads cells, and expects that they stay."""
        self.before(load(x, y, width, len(cells) // width, cells))
        for at, value in enumerate(cells):
            self.cells[x + at % width, y + at // width] = value

    # What has to come out.

    def cell(self, x: int, y: int, value: int) -> None:
        """Expects a cell."""
        self.cells[x, y] = value

    def row(self, x: int, y: int, values: Iterable[int]) -> None:
        """Expects cells of a row, from X on, which wraps."""
        for at, value in enumerate(values):
            self.cells[(x + at) % WIDTH, y] = value

    def box(self, x: int, y: int, width: int, height: int, value: int) -> None:
        """Expects one value in a box, whose rows wrap."""
        for down in range(height):
            self.row(x, (y + down) % self.rows, [value] * width)

    def art(self, x: int, y: int, rows: str, /, **values: int) -> None:
        """Expects cells that are drawn by hand: a letter for each, a dot if nothing is said."""
        for down, line in enumerate(rows.split()):
            for right, letter in enumerate(line):
                if letter != '.':
                    self.cells[x + right, y + down] = values[letter]

    def read(self, *words: int, mask: int = 0xFFFFFFFF) -> None:
        """Reads the data port, and expects these words."""
        for word in words:
            self.capture.read()
            self.words.append(Expected(word, mask))

    def stat(self, word: int, mask: int = 0xFFFFFFFF) -> None:
        """Reads the status word, and expects this one in the bits of the mask."""
        self.capture.stat()
        self.words.append(Expected(word & mask, mask))

    def ignore(self, x: int, y: int, width: int, height: int = 1) -> None:
        """Names cells that this test is not about: any value will do."""
        self.ignored |= {(x + right, y + down) for down in range(height) for right in range(width)}

    def look_at(self, x: int, y: int, width: int, height: int) -> None:
        """Names the cells that a page shows."""
        self.looked_at = x, y, width, height
