"""The lines of many polygons at once: the texts of `fields` for runs."""
from __future__ import annotations

import struct
import sys
from array import array
from itertools import repeat
from typing import Dict, Iterable, Iterator, List, Optional, Sequence, Tuple

from psxgpu.packets.fields import polygon_text
from psxgpu.packets.grammar import RAW, TEXTURED
from psxgpu.packets.parts import POLYGONS, Registers
from psxgpu.packets.runs import Run
from psxgpu.packets.split import Splitter
from psxgpu.packets.texts import Texts, colors_text

Key = Tuple[int, ...]
Tails = Dict[Tuple[int, Key], str]
STATES, TAILS = 16, 4096            # states of the registers whose texts are kept, and texts of each
STATE = (0xE1, 0xE2, 0xE5, 0xE6)    # registers that show in a polygon's fields


def has_colors(word: int) -> bool:
    """Returns whether the colours of a polygon with this first word are shown."""
    return (word >> 24) & (TEXTURED | RAW) != TEXTURED | RAW


COLORS = Texts[Key](lambda words: '; colours ' + colors_text(words) if has_colors(words[0]) else '')
HEADS = Texts[int]('{:08x}'.format)


def columns(run: Run, places: slice) -> Iterable[Key]:
    """Returns the words at some places of each packet."""
    found = range(run.length)[places]
    return zip(*(run.words[place::run.length] for place in found)) if found else repeat(())


def vertices(run: Run, places: slice) -> Iterator[Key]:
    """Returns X and Y of the vertices of each packet: bits 0 to 10 of both halves of their words, with the sign. All are
    computed at once, as one number with 16 bits for each."""
    found = range(run.length)[places]
    words = array('I', bytes(4 * len(found) * run.packets))
    for number, place in enumerate(found):
        words[number::len(found)] = run.words[place::run.length]
    size = 4 * len(words)
    ones = int.from_bytes(b'\1\0' * (2 * len(words)), 'little')
    order = sys.byteorder
    value = int.from_bytes(words.tobytes(), order)
    signed = value & 0x7FF * ones | (value >> 10 & ones) * 0xF800
    return struct.iter_unpack('=%dh' % (2 * len(found)), signed.to_bytes(size, order))


class PolygonLines:
    """Writes runs of polygons as lines, each with its fields. `page`: the bits of E1h that a texture page sets."""

    def __init__(self, splitter: Splitter) -> None:
        self.splitter = splitter
        self.states: Dict[Key, Tails] = {}

    def tails(self) -> Tails:
        """Returns the texts after the colours that are known for the registers as they are."""
        registers = self.splitter.registers
        state = registers[0xE1] & ~self.splitter.page, *(registers[number] for number in STATE[1:]), \
            registers[0xE1] & self.splitter.page
        if len(self.states) == STATES and state not in self.states:
            self.states.clear()
        return self.states.setdefault(state, {})

    def tail(self, words: Sequence[int], registers: Registers) -> str:
        """Returns the texts after the colours."""
        opcode = words[0] >> 24
        if opcode & TEXTURED:
            attribute = words[POLYGONS[opcode].texcoords][1] >> 16
            page = self.splitter.page
            registers = {**registers, 0xE1: registers[0xE1] & ~page | attribute & page}
        return ''.join('; ' + text for text in polygon_text(words, registers)[1 + has_colors(words[0]):])

    def texts(self, run: Run, lines: Sequence[str]) -> Optional[List[str]]:
        """Returns the lines of a run, given those of `list`, or None if one of them is not that of the packet's words."""
        vertex_places, color_places, texcoord_places = POLYGONS[run.opcodes[0]]
        tails, registers, heads, colored = self.tails(), self.splitter.registers, HEADS, COLORS
        form = ' | vertices ' + ' '.join(['(%d, %d)'] * len(range(run.length)[vertex_places]))
        out = []
        each = zip(lines, vertices(run, vertex_places), columns(run, color_places), columns(run, texcoord_places),
                   run.opcodes)
        for number, (line, points, colors, texcoords, opcode) in enumerate(each):
            words = line.split(' ', 3)
            if words[2] != heads[colors[0]] or not words[0].isdecimal():
                return None
            tail = tails.get((opcode, texcoords))
            if tail is None:
                if len(tails) == TAILS:
                    tails.clear()
                tails[opcode, texcoords] = tail = self.tail(run.packet(number), registers)
            out.append(f'{line[:-1]}{form % points}{colored[colors]}{tail}\n')
        return out
