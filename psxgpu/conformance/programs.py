"""Programs for the console that hold many tests each, and show a page with a square for each test: green or red.

A test begins with a reset and with video memory of zeros, and is judged before the next one begins. What it reads is
compared when it is read. At its end the program sets the cells that do not matter to 0, and compares video memory by
the CRC-32 of parts of 64 by 64 cells. All that is compared is what the test says: no other player has a part in it.
"""
from __future__ import annotations

import io
import zlib
from array import array
from typing import Dict, Iterable, Iterator, List, Sequence, Tuple

from psxgpu.conformance.judging import needs_of
from psxgpu.conformance.released import ignored_runs
from psxgpu.conformance.suite import Expected, Test
from psxgpu.console import page, sums
from psxgpu.console.image import RESET_ALL, Listed, source
from psxgpu.console.orders import Kind, Orders
from psxgpu.console.plan import Plan
from psxgpu.stream import READ, STAT, Stream

MOST_CHAPTERS, MOST_TESTS = 10, 160     # of a program: its page has room for ten, and it ends within a minute
LEFT, ACROSS, PITCH = 144, 20, 8        # of the squares
HEADS = 2                               # lines above the chapters
SPARE = 16                              # words that end a packet which an emulator did not drop at the reset
ZEROS = sums.inverted(zlib.crc32(bytes(2 * sums.PART * sums.PART)))         # of a part without cells
COLUMNS = 'program', 'chapter', 'row', 'column', 'test'


def is_held(test: Test) -> bool:
    """Returns whether a program can hold a test: it cannot see the shown picture, and writes itself what DMA brings."""
    return needs_of(test) <= {'play'}


class Checked(Plan):
    """The orders of a test. `wanted`: the words that it has to read."""

    def __init__(self, orders: Orders, wanted: Iterable[Expected]) -> None:
        super().__init__(orders, 'none')
        self.wanted = iter(wanted)

    def take(self, kind: int, count: int, words: 'array[int]') -> None:
        """Appends the orders of a record."""
        if kind not in (READ, STAT):
            super().take(kind, count, words)
            return
        for _ in range(count):
            self.expect(kind, next(self.wanted))

    def expect(self, kind: int, wanted: Expected) -> None:
        """Appends a read."""
        order = Kind.EXPECT_STATUS if kind == STAT else Kind.EXPECT_STORE if self.left else Kind.EXPECT
        self.orders.add(order, 0, (wanted.mask, wanted.word & wanted.mask))
        self.left -= kind == READ and self.left > 0


def parts_of(cells: bytes) -> Tuple[List[int], List[int]]:
    """Returns a bit for each part of video memory that has cells, in four words, and the CRC of each of these parts."""
    bits, found = [0] * 4, []
    for at, crc in enumerate(sums.parts(cells)):
        if crc != ZEROS:
            bits[at // 32] |= 1 << at % 32
            found.append(crc)
    return bits, found


class Program(Listed):
    """A program of tests."""

    def __init__(self, tests: Sequence[Test]) -> None:
        self.tests, self.chapters = tests, list(dict.fromkeys(test.chapter for test in tests))
        self.lines = [page.Line('FAILED: ', 'parts', ' OF %03d TESTS' % len(tests)),
                      page.Line('WAITS TOO LONG: ', 'waits', '')]
        self.lines += [page.Line('%-11s' % name.upper(), 'chapter%d' % k, '') for k, name in enumerate(self.chapters)]
        super().__init__(source(data=self.data()))
        for at, test in enumerate(tests):
            self.add(at, test)
        self.report()

    def data(self) -> str:
        """Returns the data of the program in the language of the assembler."""
        text = '.align 2\nwrong: .word 0\n'
        text += ''.join('chapter%d: .word 0\n' % k for k in range(len(self.chapters)))
        text += 'tested: .space %d\n' % len(self.tests)
        text += ''.join('name%d: .ascii "FAILED: %s\\0"\n' % (at, test.full_name) for at, test in enumerate(self.tests))
        return text + page.written(self.lines)

    def add(self, at: int, test: Test) -> None:
        """Appends a test."""
        orders, plan = self.orders, Checked(self.orders, test.draft.words)
        orders.add(Kind.RAW, SPARE, [0] * SPARE)
        self.reset()
        for record in Stream(io.BytesIO(test.data), test.full_name):
            plan.take(*record)
        orders.add(Kind.CONTROL_LATE, 1, (RESET_ALL,))
        for x, y, count in ignored_runs(test):
            orders.add(Kind.PACKETS, 3, (0xA0000000, y << 16 | x, 1 << 16 | count))
            orders.data(array('I', [0] * ((count + 1) // 2)))
        bits, found = parts_of(test.compared)
        counter = self.labels['chapter%d' % self.chapters.index(test.chapter)]
        orders.add(Kind.JUDGE, 0, (self.labels['tested'] + at, counter, *bits, *found))

    def squares(self) -> Iterator[Tuple[Test, int, int]]:
        """Yields each test, with the row and the column of its square in its chapter."""
        seen: Dict[str, int] = {}
        for test in self.tests:
            at = seen.setdefault(test.chapter, 0)
            seen[test.chapter] += 1
            yield test, at // ACROSS, at % ACROSS

    def report(self) -> None:
        """Appends the page, and what is said on the TTY: how many failed, and which."""
        self.show(page.BLACK)
        self.show_lines(self.lines)
        for at, (test, row, column) in enumerate(self.squares()):
            line = HEADS + self.chapters.index(test.chapter)
            corner = page.row(line) + (PITCH * row << 16)
            self.orders.add(Kind.BOX, 0, ((corner & 0xFFFF0000) | LEFT + PITCH * column, self.labels['tested'] + at))
        self.say_lines(HEADS)
        for at in range(len(self.tests)):
            self.orders.add(Kind.SAY_FAILED, 0, (self.labels['tested'] + at, self.labels['name%d' % at]))
        self.orders.add(Kind.END)


def programs(tests: Iterable[Test]) -> List[Program]:
    """Returns the programs of those tests that a program can hold: all tests of a chapter are in one program."""
    held = [test for test in tests if is_held(test)]
    chapters = list(dict.fromkeys(test.chapter for test in held))
    number = max(-(-len(chapters) // MOST_CHAPTERS), -(-len(held) // MOST_TESTS))
    most = -(-len(chapters) // number) if number else 0
    return [Program([test for test in held if test.chapter in chapters[most * k:most * (k + 1)]])
            for k in range(number)]


def places(name: str, program: Program) -> Iterator[str]:
    """Yields a line for each square of a program: COLUMNS."""
    for test, row, column in program.squares():
        yield '\t'.join((name, test.chapter, str(row + 1), str(column + 1), test.full_name))
