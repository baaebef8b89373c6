"""Packs orders: segments of SLOT bytes in raw deflate. The player unpacks one after another (`program/unpack.s`)."""
import zlib
from array import array
from typing import Dict, Iterator

from psxgpu.console.orders import SAME, WORDED, Kind
from psxgpu.packets.grammar import name_and_length
from psxgpu.stream import little

SLOT = 0x4000               # bytes of a segment; four of them are the window
WINDOW = 0x801E0000         # where they are unpacked
TABLES = 0x801F0000         # and the tables for that
DISTANCES = 0x680           # bytes of a table of codes
NAMES = {'WINDOW': WINDOW, 'WINDOW_HIGH': WINDOW >> 16, 'SLOT': SLOT, 'TABLES': TABLES, 'DISTANCES': DISTANCES,
         'CODE_LENGTHS': TABLES + 2 * DISTANCES, 'OFFSETS': TABLES + 2 * DISTANCES + 0x180}
# RFC 1951, sections 3.2.5 and 3.2.7.
LENGTHS = (3, 4, 5, 6, 7, 8, 9, 10, 11, 13, 15, 17, 19, 23, 27, 31, 35, 43, 51, 59, 67, 83, 99, 115, 131, 163, 195, 227,
           258)
LENGTH_ORDER = (16, 17, 18, 0, 8, 7, 9, 6, 10, 5, 11, 4, 12, 3, 13, 2, 14, 1, 15)
LENGTH_EXTRAS = [max(0, k // 4 - 1) for k in range(28)] + [0]
DISTANCE_EXTRAS = [max(0, k // 2 - 1) for k in range(30)]
TEXT_WORDS: Dict[int, int] = {Kind.TEXT: 4, Kind.SAY: 1, Kind.CHECK_READS: 1}


def distances() -> Iterator[int]:
    """The least distance of each code."""
    distance = 1
    for extra in DISTANCE_EXTRAS:
        yield distance
        distance += 1 << extra


def packets_within(words: 'array[int]', room: int) -> int:
    """Returns how many words the whole packets have that begin `words` and fit into `room` words."""
    n = 0
    while n < len(words):
        length = name_and_length(words[n])[1]
        if n + length > room:
            break
        n += length
    return n


class Segments:
    """Cuts a list of orders into segments of SLOT bytes. An order that does not fit is cut as well."""

    def __init__(self) -> None:
        self.segment = array('I')
        self.full = []                  # type: list[array[int]]

    def room(self) -> int:
        """Returns how many words fit in: the last one is the order `more`."""
        return SLOT // 4 - 1 - len(self.segment)

    def close(self) -> None:
        """Ends a segment."""
        self.segment.append(Kind.MORE << 24)
        self.segment.extend([0] * (SLOT // 4 - len(self.segment)))
        self.full.append(self.segment)
        self.segment = array('I')

    def whole(self, words: 'array[int]') -> None:
        """Appends an order that is not cut."""
        if len(words) > self.room():
            self.close()
        self.segment.extend(words)

    def cut(self, kind: int, words: 'array[int]') -> None:
        """Appends an order of words, in parts."""
        at = 0
        while at < len(words):
            room = self.room() - 1
            n = min(room, len(words) - at)
            if kind == Kind.PACKETS:
                n = packets_within(words[at:at + n], room)
            if n <= 0:
                self.close()
                continue
            self.segment.append(kind << 24 | n)
            self.segment.extend(words[at:at + n])
            at += n

    def take(self, words: 'array[int]') -> None:
        """Appends all orders of a list."""
        at = 0
        while at < len(words):
            tag = words[at]
            kind, n = tag >> 24, tag & 0xFFFFFF
            if kind < WORDED and kind != Kind.END and kind != Kind.BEGUN:
                self.cut(kind, words[at + 1:at + 1 + n])
            else:
                n = 1 if kind >= SAME else n if kind == Kind.BEGUN else TEXT_WORDS.get(kind, 0)
                self.whole(words[at:at + 1 + n])
            at += 1 + n


def packed(words: 'array[int]') -> bytes:
    """Returns orders as the player unpacks them: the order `more`, and the segments."""
    segments = Segments()
    segments.take(words)
    segments.close()
    deflate = zlib.compressobj(9, zlib.DEFLATED, -15)
    out = bytearray(little(array('I', [Kind.MORE << 24])).tobytes())
    for segment in segments.full:
        part = deflate.compress(little(segment).tobytes()) + deflate.flush(zlib.Z_SYNC_FLUSH)
        out += len(part).to_bytes(2, 'little') + part
    return bytes(out)
