"""Writes captures, and takes them apart again. docs/CAPTURE.md has the format. Importing this module writes nothing.

    from psxgpu.capture import Capture, fill, rectangle
    capture = Capture()
    capture.gp0(fill(0x802010, 0, 0, 1024, 511))
    capture.gp0(rectangle(0x0000FF, 10, 20, 64, 64))
    capture.save('mine.capture')

A function of this module that is named after a packet gives the packet's words as a list: they can be written to the
port (`Capture.gp0`) or laid into main memory for DMA (`Capture.ram`, `OrderingTable`). A colour is a number whose
lowest byte is red, the next green, the next blue: 0x0000FF is red. A number that does not fit its field is a
ValueError that names the field. `Stream` of stream.py reads captures of any length.
"""
import io
import os
import struct
from typing import Iterable, List, Optional, Sequence, Tuple, TypeVar, Union

from psxgpu.output import write_whole
from psxgpu.registers import (clear_commands, clear_interrupt, display_mode, display_on, display_start, dma_direction,
                              draw_mode, drawing_area, drawing_offset, horizontal_range, information, mask_setting,
                              reset, screen, texture_window, vertical_range)
from psxgpu.records import Plain, events
from psxgpu.stream import (BEGIN, DMA, GP0, GP1, HEADS, KINDS, MOST_READS, MOST_WORDS, RAM, READ, SKIP, STAT, TURN,
                           Stream, encode, is_allowed)
from psxgpu.words import (bits, clut, copy, corner, fill, interrupt, line, load, nop, polygon, rectangle, store,
                          texcoord, texture_page, vertex)

__all__ = ['BEGIN', 'BLOCKS_IN', 'BLOCKS_OUT', 'CLEAR_TABLE', 'Capture', 'DMA', 'GP0', 'GP1', 'HEADS', 'KINDS', 'LIST',
           'OrderingTable', 'RAM', 'READ', 'SKIP', 'STAT', 'Stream', 'TURN', 'clear_commands', 'clear_interrupt',
           'clut', 'copy', 'corner', 'display_mode', 'display_on', 'display_start', 'dma_direction', 'draw_mode',
           'drawing_area', 'drawing_offset', 'encode', 'events', 'fill', 'flat', 'horizontal_range', 'information',
           'interrupt', 'line', 'load', 'mask_setting', 'nop', 'polygon', 'records', 'rectangle', 'reset', 'screen',
           'store', 'texcoord', 'texture_page', 'texture_window', 'vertex', 'vertical_range']

# Values of CHCR for channel 2 and channel 6.
LIST, BLOCKS_IN, BLOCKS_OUT, CLEAR_TABLE = 0x01000401, 0x01000201, 0x01000200, 0x11000002

Self = TypeVar('Self', bound='Capture')
Words = Union[int, Iterable[int], Iterable[Iterable[int]]]


class Capture:
    """A capture that grows record by record."""

    def __init__(self, version: int = 1) -> None:
        self.version = version
        self.records: List[bytes] = []

    def keep(self, record: bytes) -> None:
        """Takes the bytes of a record."""
        self.records.append(record)

    def record(self: Self, kind: int, count: int, words: Iterable[int] = ()) -> Self:
        """Adds a record. Raises ValueError if the version has no such record, or a word has more than 32 bits."""
        words = list(words)
        if kind > (DMA if self.version == 1 else SKIP):
            raise ValueError('%s records need version 2 or 3' % KINDS[kind])
        if not is_allowed(self.version, kind, count):
            raise ValueError('%s count: %d' % (KINDS[kind], count))
        try:
            self.keep(encode(kind, count, words))
        except OverflowError:
            for word in words:
                bits(KINDS[kind] + ' word', word, 32)
        return self

    def gp0(self: Self, *packets: Words) -> Self:
        """Adds words for port GP0: numbers, or lists of them. One record; each word is an event."""
        words = flat(packets)
        for at in range(0, len(words), MOST_WORDS):
            part = words[at:at + MOST_WORDS]
            self.record(GP0, len(part), part)
        return self

    def gp1(self: Self, *words: Words) -> Self:
        """Adds words for port GP1, a record each."""
        for word in flat(words):
            self.record(GP1, 1, (word,))
        return self

    def ram(self: Self, address: int, *words: Words) -> Self:
        """Adds words for main memory, from this address on: a multiple of 4."""
        found = flat(words)
        if address % 4 or not 0 <= address <= 0x200000 - 4 * len(found):
            raise ValueError('ram address: %x for %d words' % (address, len(found)))
        if found:
            self.record(RAM, len(found), [address] + found)
        return self

    def repeat(self: Self, kind: int, n: int) -> Self:
        """Adds n events of a kind without words."""
        while n > 0:
            self.record(kind, min(n, MOST_READS))
            n -= MOST_READS
        return self

    def read(self: Self, n: int = 1) -> Self:
        """Adds n reads of the data port."""
        return self.repeat(READ, n)

    def turn(self: Self, n: int = 1) -> Self:
        """Adds n turns of the running transfer. Versions 2 and 3."""
        return self.repeat(TURN, n)

    def skip(self: Self, n: int = 1) -> Self:
        """Adds n reads whose words are not shown. Versions 2 and 3."""
        return self.repeat(SKIP, n)

    def stat(self: Self, n: int = 1) -> Self:
        """Adds n reads of the status word."""
        for _ in range(n):
            self.record(STAT, 1)
        return self

    def dma(self: Self, channel: int, madr: int, bcr: int, chcr: int) -> Self:
        """Adds a start of channel 2 (graphics) or 6 (ordering table), done at once."""
        if channel not in (2, 6):
            raise ValueError('dma channel: %d is neither 2 nor 6' % channel)
        return self.record(DMA, channel, (madr, bcr, chcr))

    def begin(self: Self, madr: int, bcr: int, chcr: int) -> Self:
        """Adds a start of channel 2 that continues at each turn. Versions 2 and 3."""
        return self.record(BEGIN, 2, (madr, bcr, chcr))

    def start_from(self: Self, dump: bytes, settings: Iterable[int] = (), display: Sequence[int] = ()) -> Self:
        """Begins from a state that is not empty: a dump of video memory as `vram` writes it, the values of E1h to
        E6h, and words for GP1. Video memory comes in loads of 512 by 256, since some emulators (pcsxr, MAME) do not
        take a size of 0 for 1024."""
        rows = 1024 if self.version == 3 else 512
        if len(dump) != 2048 * rows:
            raise ValueError('dump: %d bytes for %d rows' % (len(dump), rows))
        self.gp0(mask_setting())
        for y in range(0, rows, 256):
            for x in (0, 512):
                part = b''.join(dump[at:at + 1024] for at in range(2048 * y + 2 * x, 2048 * (y + 256), 2048))
                self.gp0(0xA0000000, corner(x, y), corner(512, 256), list(struct.unpack('<65536I', part)))
        if settings:
            self.gp0([0xE1000000 + 0x01000000 * k | bits('setting', value, 24) for k, value in enumerate(settings)])
        return self.gp1(display)

    def bytes(self) -> bytes:
        """Returns the file."""
        return HEADS[self.version] + b''.join(self.records) + bytes(4)

    def save(self, path: "Union[str, os.PathLike[str]]") -> None:
        """Writes the capture to a file, which appears when it is whole."""
        write_whole(os.fspath(path), self.bytes())


def flat(words: Iterable[Words]) -> List[int]:
    """Returns numbers and lists of numbers as one list."""
    out: List[int] = []
    for word in words:
        if isinstance(word, int):
            out.append(word)
        else:
            out.extend(flat(word))
    return out


def records(data: bytes) -> Tuple[int, List[Plain]]:
    """Returns the version of a capture and the list of its records (kind, count, words), without End. `Stream` does the
    same without holding all of it."""
    stream = Stream(io.BytesIO(data), 'capture', exact=True)
    return stream.version, [(kind, count, words.tolist()) for kind, count, words in stream]


class OrderingTable:
    """An ordering table in main memory: `clear`, `add` packets at depths, `draw`. Entry 0 is drawn last."""

    def __init__(self, capture: Capture, table: int = 0x1000, entries: int = 256, packets: int = 0x8000) -> None:
        self.capture, self.table, self.entries, self.free = capture, table, entries, packets
        self.first: List[Optional[int]] = [None] * entries

    def entry(self, depth: int) -> int:
        """Returns the address of the entry of a depth."""
        return self.table + 4 * depth

    def clear(self) -> None:
        """Channel 6 writes the table: each entry leads to the one before it, entry 0 ends the list."""
        self.capture.dma(6, self.entry(self.entries - 1), self.entries, CLEAR_TABLE)
        self.first = [None] * self.entries

    def add(self, depth: int, words: Words) -> None:
        """Puts a packet before those that are already at this depth, as a program does."""
        found = flat([words])
        below = self.first[depth]
        if below is None:
            below = self.entry(depth - 1) if depth else 0xFFFFFF
        self.capture.ram(self.free, len(found) << 24 | below, found)
        self.capture.ram(self.entry(depth), self.free)
        self.first[depth] = self.free
        self.free += 4 + 4 * len(found)

    def draw(self) -> None:
        """Channel 2 walks the list from the last entry on."""
        self.capture.dma(2, self.entry(self.entries - 1), 0, LIST)
