"""How simple units are. A candidate is only tried if it is strictly simpler, so the search ends."""
from __future__ import annotations

from array import array
from typing import Iterator, Sequence, Tuple

from psxgpu.packets.grammar import (COPY, ENVIRONMENT, LINE, LOAD, POLYGON, POLYLINE, RAW, RECTANGLE, SEMI, SHADED,
                                    STORE, TEXTURED)
from psxgpu.reduce.layout import WHOLE_AREA, fields_of, goal_of, value_of
from psxgpu.reduce.units import Unit

GREATEST = 1024     # what a size of 0 stands for in copies and stores


def size_cost(units: Sequence[Unit]) -> Tuple[int, int]:
    """Returns the words of all units, and how many units they are."""
    return sum(unit.size for unit in units), len(units)


def flags(unit: Unit) -> int:
    """Returns how many properties a primitive has: a texture, a factor of it, shades, blending, joints."""
    opcode = unit.opcode
    if unit.name in (POLYGON, RECTANGLE):
        shaded = unit.name == POLYGON and opcode & SHADED
        factor = opcode & TEXTURED and not opcode & RAW
        return sum(map(bool, (opcode & TEXTURED, factor, shaded, opcode & SEMI)))
    return sum(map(bool, (opcode & SHADED, opcode & SEMI, opcode & POLYLINE))) if unit.name == LINE else 0


def distances(unit: Unit) -> Iterator[int]:
    """Yields how far each number of a packet is from the simplest one."""
    for at, shift, width in fields_of(unit):
        value, goal = value_of(unit.words[at], shift, width), goal_of(unit, at)
        if not value and goal == 1 and unit.name in (COPY, STORE):
            value = GREATEST
        yield abs(value - goal)


def bits(unit: Unit, is_tall: bool) -> int:
    """Returns how many bits are set. The bottom right corner of the drawing area counts from that of the whole."""
    if unit.name == ENVIRONMENT and unit.opcode == 0xE4:
        return bin(unit.words[0] ^ WHOLE_AREA[is_tall]).count('1')
    return bin(int.from_bytes(array('I', unit.words).tobytes(), 'little')).count('1')       # all words as one number


def detail_cost(units: Sequence[Unit], is_tall: bool) -> Tuple[int, int, int, int]:
    """Returns what decides between units of one size: properties, numbers, different words of loads, bits."""
    packets = [unit for unit in units if unit.is_packet]
    counts = sum(count for unit in units for _, count, words in unit.records if not words)
    return (sum(map(flags, packets)), counts + sum(sum(distances(unit)) for unit in packets),
            sum(len(set(unit.words[3:])) for unit in packets if unit.name == LOAD),
            sum(bits(unit, is_tall) for unit in units if unit.words))


def is_simpler(new: Sequence[Unit], old: Sequence[Unit], is_tall: bool) -> bool:
    """Returns whether `new` has fewer words; if as many, fewer units; if as many, less detail."""
    one, other = size_cost(new), size_cost(old)
    if one != other:
        return one < other
    return detail_cost(new, is_tall) < detail_cost(old, is_tall)
