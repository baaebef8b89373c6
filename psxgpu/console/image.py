"""The image of a test program: the player, its tables, and the orders."""
import os
import struct
from array import array
from typing import Iterable, Optional, Sequence

from psxgpu.command import ToolError
from psxgpu.console import page, segments, sums
from psxgpu.console.assembler import assemble
from psxgpu.console.orders import OF_TESTS, WORDED, Kind, Orders
from psxgpu.console.plan import Plan
from psxgpu.packets.grammar import name_and_length
from psxgpu.stream import little

FOLDER = os.path.join(os.path.dirname(os.path.abspath(__file__)), 'program')
SOURCES = 'begin', 'ports', 'reads', 'sums', 'text', 'unpack', 'bits', 'codes', 'construct'
ADDRESS, STACK = 0x80010000, 0x801FFF00
# Bytes of the program at most: as it is, if it is packed, and before it is packed.
MOST, MOST_PACKED, MOST_UNPACKED = 0x1E8000, segments.WINDOW - ADDRESS, 1 << 26
SECTOR = 2048                                               # an EXE consists of whole ones
NAMES = {'MAP_X': page.MAP_X, 'MAP_Y': page.MAP_Y, 'SIDE': page.SIDE, 'POLLS': page.POLLS, 'WORDED': int(WORDED),
         **segments.NAMES}
# GP1: what a reset sets besides its flags. The reset of pcsxr leaves the start and ranges of the display as they are.
RESET = 0x04000000, 0x05000000, 0x06C00200, 0x07040010, 0x08000000
DISPLAY_ON, RESET_ALL = 0x03000000, 0x00000000
SHOWN = 120                                                 # vertical blanks before the check


def listed(label: str, directive: str, values: Iterable[object]) -> str:
    """Returns a line with values after a label."""
    return '%s: %s %s\n' % (label, directive, ', '.join(map(str, values)))


def source(cells: Optional[bytes] = None, data: Optional[str] = None) -> str:
    """Returns the text of the program up to its orders. `cells`: video memory as it has to be. `data`: of a program of
    tests, which has more kinds of orders; other programs have the lines of a check."""
    text = ''
    for name in SOURCES if data is None else (*SOURCES, 'tests'):
        with open(os.path.join(FOLDER, name + '.s')) as file:
            text += file.read()
    text += '.align 2\n'
    text += listed('kinds', '.word', (kind.name.lower() for kind in Kind if data is not None or kind < OF_TESTS))
    text += listed('sum_table', '.word', sums.table())
    text += listed('wanted_sums', '.word', sums.parts(cells) if cells else [0])
    text += listed('glyphs', '.half', (page.glyph(chr(code)) for code in range(32, 91)))
    text += listed('lengths', '.byte', (name_and_length(opcode << 24)[1] for opcode in range(256)))
    text += listed('length_bases', '.half', segments.LENGTHS)
    text += listed('distance_bases', '.half', segments.distances())
    text += listed('length_extras', '.byte', segments.LENGTH_EXTRAS)
    text += listed('distance_extras', '.byte', segments.DISTANCE_EXTRAS)
    text += listed('length_order', '.byte', segments.LENGTH_ORDER)
    text += page.written(page.LINES) if data is None else data
    return text + '.align 2\norders:\n'


class NoRoom(ToolError):
    """The program is larger than main memory."""


class Listed:
    """A program, the player, its tables and a list of orders. If it `packs`, its orders are packed."""

    def __init__(self, text: str, packs: bool = False) -> None:
        self.code, self.labels = assemble(text, ADDRESS, NAMES)
        self.packs = packs
        self.orders = Orders(self.labels['orders'], packs)

    def reset(self) -> None:
        """Appends what makes the state after a reset: registers, and video memory of zeros."""
        for word in (RESET_ALL, *RESET):
            self.orders.add(Kind.CONTROL_NOW, 1, (word,))
        for corner in (0, 0x200, 0x1000000, 0x1000200):
            self.orders.grow(Kind.PACKETS, array('I', (0x02000000, corner, 0x1000200)))
        self.orders.grow(Kind.PACKETS, array('I', (opcode << 24 for opcode in range(0xE1, 0xE7))))

    def expect_room(self, size: int, most: int) -> None:
        """NoRoom if a size is too large."""
        if size > most:
            raise NoRoom('a console has no memory for more than %d bytes of packed orders' % MOST_PACKED)

    def show(self, ground: Sequence[int]) -> None:
        """Appends the screen of the page, and its ground."""
        for word in (*page.SCREEN, DISPLAY_ON):
            self.orders.add(Kind.CONTROL, 1, (word,))
        self.orders.add(Kind.PACKETS, len(ground), ground)

    def show_lines(self, lines: Sequence[page.Line]) -> None:
        """Appends the lines of the page."""
        for k, line in enumerate(lines):
            names = 'line%d' % k, line.number, 'digits%d' % k
            self.orders.add(Kind.TEXT, 0, (page.row(k), *(self.labels[name] for name in names)))

    def say_lines(self, number: int) -> None:
        """Appends that the first lines are said on the TTY."""
        for k in range(number):
            self.orders.add(Kind.SAY, 0, (self.labels['line%d' % k],))

    def executable(self) -> bytes:
        """Returns the PS-X EXE: a head of one sector, and the program. NoRoom if it is too large."""
        words = self.orders.words
        body = self.code + (segments.packed(words) if self.packs else little(words[:]).tobytes())
        self.expect_room(len(body), MOST_PACKED if self.packs else MOST)
        body += bytes(-len(body) % SECTOR)
        head = b'PS-X EXE' + bytes(8) + struct.pack('<10I', ADDRESS, 0, ADDRESS, len(body), 0, 0, 0, 0, STACK, 0)
        return head.ljust(SECTOR, b'\0') + body


class Image(Listed):
    """A program that grows record by record. With `cells`, video memory after the capture, it checks at its end."""

    def __init__(self, blanks: str, cells: Optional[bytes] = None, packs: bool = False) -> None:
        super().__init__(source(cells), packs)
        self.plan = Plan(self.orders, blanks)
        self.checks = cells is not None
        self.reset()

    def take(self, kind: int, count: int, words: 'array[int]') -> None:
        """Appends a record. NoRoom if there is no more room."""
        self.plan.take(kind, count, words)
        self.expect_room(len(self.code) + 4 * len(self.orders.words), MOST_UNPACKED if self.packs else MOST)

    def end(self, reads: int) -> None:
        """Appends what follows the capture. `reads`: the CRC of the words that it reads."""
        if self.plan.is_off:
            self.orders.add(Kind.CONTROL_NOW, 1, (DISPLAY_ON,))
            if self.plan.is_idle():     # a fill without cells: pcsxr shows video memory when something is drawn
                self.orders.add(Kind.PACKETS, 3, (0x02000000, 0, 0))
        if self.checks:
            self.report(reads)
        self.orders.add(Kind.END)

    def report(self, reads: int) -> None:
        """Appends the check, the page of what differs, and its lines for the TTY."""
        orders = self.orders
        orders.add(Kind.BLANK, SHOWN)
        orders.add(Kind.CONTROL_LATE, 1, (RESET_ALL,))
        orders.add(Kind.CHECK_READS, 0, (reads,))
        orders.add(Kind.SUMS)
        self.show(page.GROUND)
        orders.add(Kind.MAP)
        self.show_lines(page.LINES)
        self.say_lines(len(page.LINES))
