"""Runs: polygons, or rectangles, of one length one after another. They are found by a look at their first words alone,
so what is done with them can be done for many at once."""
from __future__ import annotations

import sys
from array import array
from typing import Dict, Iterator, List, NamedTuple, Tuple, Union

from psxgpu.packets.grammar import POLYGON, RECTANGLE, TABLE
from psxgpu.packets.split import Splitter

LEAST, MOST = 4, 512            # packets of a run; fewer are split one by one
TOP = 3 if sys.byteorder == 'little' else 0         # the byte of a word that has the opcode
Split = Tuple[str, List[int], int]      # what Splitter.push gives


def alike(opcode: int) -> bytes:
    """Returns the opcodes whose packets have their words in the same places: those of polygons that differ in
    transparency and raw texture alone, and for rectangles also of the same size code."""
    return bytes(range(opcode & ~3, (opcode & ~3) + 4))


ALIKE: Dict[int, bytes] = {opcode: alike(opcode) for opcode in range(256) if TABLE[opcode][0] in (POLYGON, RECTANGLE)}


class Run(NamedTuple):
    """Packets of one name and length: their words, and how many words of the record were taken with the last one."""
    name: str
    length: int
    words: "array[int]"
    end: int

    @property
    def packets(self) -> int:
        """The number of packets."""
        return len(self.words) // self.length

    def packet(self, number: int) -> List[int]:
        """Returns the words of a packet, by its number from 0."""
        return self.words[number * self.length:(number + 1) * self.length].tolist()

    def end_of(self, number: int) -> int:
        """Returns how many words of the record were taken with a packet."""
        return self.end - len(self.words) + (number + 1) * self.length

    @property
    def opcodes(self) -> bytes:
        """The opcode of each packet."""
        return self.words[::self.length].tobytes()[TOP::4]


def run_length(words: "array[int]", at: int) -> int:
    """Returns how many packets of a run begin at an index, at most MOST. Words that are missing end it."""
    opcode = words[at] >> 24
    if opcode not in ALIKE:
        return 0
    same, length = ALIKE[opcode], TABLE[opcode][1]
    most = min((len(words) - at) // length, MOST)
    if most < LEAST or words[at + length] >> 24 not in same or words[at + 2 * length] >> 24 not in same:
        return 0
    opcodes = words[at:at + most * length:length].tobytes()[TOP::4]
    found = len(opcodes) - len(opcodes.lstrip(same))
    return found if found >= LEAST else 0


def pieces(splitter: Splitter, words: "array[int]") -> Iterator[Union[Run, Split]]:
    """Returns what `push` of the splitter returns, with runs in the place of packets. The splitter stays in front of a
    run until the next item is asked for: `Splitter.change` with a packet of it sets the registers after that packet."""
    at, end, view = 0, len(words), memoryview(words)
    while at < end:
        count = run_length(words, at) if splitter.is_idle() else 0
        if count:
            name, length = TABLE[words[at] >> 24]
            run = Run(name, length, words[at:at + count * length], at + count * length)
            yield run
            if name == POLYGON:
                splitter.change(name, run.packet(count - 1))
            at = run.end
            continue
        begin, at = at, end
        for name, packet, taken in splitter.push(view[begin:]):
            yield name, packet, begin + taken
            if begin + taken < end and splitter.is_idle() and run_length(words, begin + taken):
                at = begin + taken
                break
