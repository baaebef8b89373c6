"""Turns the records of a flat capture into orders for the console's player."""
from array import array
from typing import List, NamedTuple

from psxgpu.command import ToolError
from psxgpu.console.orders import Kind, Orders
from psxgpu.console.unfinished import Unfinished
from psxgpu.packets.grammar import RESETS, name_and_length
from psxgpu.stream import GP0, GP1, READ, SKIP, STAT

DISPLAY, START, MARK = 0x03, 0x05, 0x3F     # opcodes of GP1
BLANKS = {'marks': MARK, 'flips': START, 'none': None}
BYTES = {Kind.READ: 4, Kind.READ_LOW: 2, Kind.READ_LOOSE: 0}


class Reads(NamedTuple):
    """Reads of the data port: how many, and how many bytes of each word are checked."""
    number: int
    size: int


class Plan(Unfinished):
    """The orders of a capture, record by record. `blanks`: a name of BLANKS, before which words of GP1 the console
    waits for a vertical blank. Marks are not written to the GPU."""

    def __init__(self, orders: Orders, blanks: str) -> None:
        super().__init__()
        self.orders, self.blank = orders, BLANKS[blanks]
        self.is_odd = False                 # whether the last word of the open store has one cell
        self.is_off = True                  # whether the display is off
        self.reads: List[Reads] = []
        self.late = self.replaced = self.loose = 0

    def take(self, kind: int, count: int, words: 'array[int]') -> None:
        """Appends the orders of a record. ToolError if it is none of a flat capture."""
        if kind == GP0:
            self.gp0(words)
        elif kind == GP1:
            self.gp1(words[0])
        elif kind in (READ, SKIP):
            self.read(count)
        elif kind != STAT:
            raise ToolError('a record of kind %d is not flat' % kind)

    def gp0(self, words: 'array[int]') -> None:
        """Appends words of GP0, each as what it is: data, a vertex of a polyline, part of a packet."""
        at, splitter = 0, self.splitter
        while at < len(words):
            if splitter.pixels:
                n = min(splitter.pixels, len(words) - at)
                self.orders.data(words[at:at + n])
            elif splitter.last:
                n = 1
                self.orders.grow(Kind.SLOW, words[at:at + n])
            elif splitter.words:
                n = min(splitter.wanted - len(splitter.words), len(words) - at)
                self.orders.grow(Kind.RAW, words[at:at + n])
            else:
                n = self.packet(words, at)
            self.push(words[at:at + n])
            at += n

    def packet(self, words: 'array[int]', at: int) -> int:
        """Appends what is there of the packet that begins at `at`. Returns how many words that is."""
        n = name_and_length(words[at])[1]
        part = words[at:at + n]
        if self.left:
            self.late += 1
            self.orders.grow(Kind.RAW, part)
        elif len(part) < n:
            self.orders.add(Kind.BEGUN, len(part), part)
        else:
            self.orders.grow(Kind.PACKETS, part)
        return len(part)

    def store(self, size: int) -> None:
        """A store is open from now on."""
        self.replaced += self.left > 0
        super().store(size)
        self.is_odd = bool(size & size >> 16 & 1)

    def gp1(self, word: int) -> None:
        """Appends a word of GP1, and the vertical blank before it."""
        opcode = word >> 24 & 0x3F
        if opcode == self.blank:
            self.orders.add(Kind.BLANK, 1)
        if opcode == MARK:
            return
        busy = Kind.CONTROL_LATE if opcode in RESETS else Kind.CONTROL_NOW
        self.orders.add(Kind.CONTROL if self.is_idle() else busy, 1, (word,))
        self.control(word)
        if opcode in (0, DISPLAY):
            self.is_off = opcode == 0 or word & 1 == 1

    def read(self, count: int) -> None:
        """Appends reads of the data port."""
        n = min(count, self.left)
        low = int(n > 0 and n == self.left and self.is_odd)
        self.left -= n
        self.loose += count - n
        for kind, many in ((Kind.READ, n - low), (Kind.READ_LOW, low), (Kind.READ_LOOSE, count - n)):
            if many:
                self.orders.add(kind, many)
                self.reads.append(Reads(many, BYTES[kind]))

    def warnings(self) -> List[str]:
        """Returns a line for each thing that a console may do otherwise than psxgpu_tool."""
        told = (('%d packets begin while a store is open: a console keeps them until it is read', self.late),
                ('%d stores begin while another one is open', self.replaced),
                ('%d words are read while no store is open: they are not checked', self.loose))
        return [line % n for line, n in told if n]
