"""What a test is, and how a chapter has its own.

A chapter is a module of `chapters` with a `CHAPTER`. A test is a function that fills a `Draft`: it writes the
capture, and says what has to come out of it.
"""
from __future__ import annotations

import array
from dataclasses import dataclass, field
from functools import cached_property
from typing import Callable, FrozenSet, Iterable, List, Optional, Tuple

from psxgpu.conformance.draft import HEIGHT, Box, Draft, Expected, Picture, Place, cell, rgb
from psxgpu.vram import WIDTH

__all__ = ['FORMULA', 'HAND', 'HEIGHT', 'OWN', 'PSX_SPX', 'Box', 'Chapter', 'Draft', 'Expected', 'Picture', 'Place',
           'Test', 'WIDTH', 'cell', 'rgb']

PSX_SPX, OWN = 'psx-spx', 'own rule'                # who decides
HAND, FORMULA = 'hand', 'formula'                   # where the expected values come from
MOST_BYTES = 65536
Write = Callable[[Draft], None]
Marks = FrozenSet[Tuple[str, str]]                  # cells of the table of rules: a rule and a kind of packet


@dataclass(frozen=True)
class Test:
    """A test. `says`: its rule in one sentence. `section`: of psx-spx. `needs`: what the player has to take. `marks`:
    the cells of the table of rules that it tests."""
    chapter: str
    name: str
    says: str
    section: str
    decides: str
    worked: str
    needs: FrozenSet[str]
    version: int
    write: Write = field(compare=False)
    marks: Marks = frozenset()

    @property
    def full_name(self) -> str:
        """The name with the chapter before it."""
        return self.chapter + '/' + self.name

    @property
    def rows(self) -> int:
        """The rows of video memory."""
        return 2 * HEIGHT if self.version == 3 else HEIGHT

    @cached_property
    def draft(self) -> Draft:
        """The capture, and what is expected."""
        draft = Draft(self.version, self.rows)
        self.write(draft)
        return draft

    @cached_property
    def data(self) -> bytes:
        """The bytes of the capture."""
        data = self.draft.capture.bytes()
        if len(data) > MOST_BYTES:
            raise ValueError('%s: %d bytes' % (self.full_name, len(data)))
        return data

    @cached_property
    def dump(self) -> bytes:
        """Video memory as it has to be."""
        cells = array.array('H', bytes(2 * WIDTH * self.rows))
        for (x, y), value in self.draft.cells.items():
            cells[WIDTH * y + x] = value
        return cells.tobytes()

    @property
    def compared(self) -> bytes:
        """The same with 0 in the cells whose value does not matter."""
        cells = array.array('H', self.dump)
        for x, y in self.draft.ignored:
            cells[WIDTH * y + x] = 0
        return cells.tobytes()

    @property
    def area(self) -> Optional[Box]:
        """The box that a page shows; None if nothing is expected."""
        return self.draft.looked_at or box_of(self.draft.cells)


def box_of(places: Iterable[Place]) -> Optional[Box]:
    """Returns the smallest box with these places, or None if there is none."""
    places = list(places)
    if not places:
        return None
    xs, ys = [x for x, _ in places], [y for _, y in places]
    return min(xs), min(ys), max(xs) - min(xs) + 1, max(ys) - min(ys) + 1


class Chapter:
    """Tests of one chapter, in the order in which they are written."""

    def __init__(self, name: str, section: str, needs: Iterable[str] = (), version: int = 1) -> None:
        self.name, self.section, self.needs, self.version = name, section, frozenset(needs), version
        self.tests: List[Test] = []

    def add(self, name: str, says: str, decides: str, worked: str, write: Write, section: Optional[str] = None,
            marks: Marks = frozenset()) -> None:
        """Adds a test. Raises ValueError if the chapter has its name already."""
        if any(test.name == name for test in self.tests):
            raise ValueError('%s/%s: a second one' % (self.name, name))
        self.tests.append(Test(self.name, name, says, section or self.section, decides, worked, self.needs,
                               self.version, write, marks))

    def test(self, says: str, decides: str = PSX_SPX, worked: str = HAND, section: Optional[str] = None,
             marks: Iterable[Tuple[str, str]] = ()) -> Callable[[Write], Write]:
        """Makes a test of a function that fills a draft. Its name, with hyphens, is the test's."""
        def keep(write: Write) -> Write:
            self.add(write.__name__.replace('_', '-'), says, decides, worked, write, section, frozenset(marks))
            return write
        return keep
