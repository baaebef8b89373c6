"""Smaller numbers and fewer bits in a unit."""
from __future__ import annotations

from typing import Iterator, List

from psxgpu.packets.grammar import COPY, LOAD, POLYGON, STORE
from psxgpu.reduce.layout import USED, fields_of, goal_of, layout, value_of, with_value
from psxgpu.reduce.units import Unit


def nearer(value: int, goal: int) -> List[int]:
    """Returns numbers from the goal to the value, the nearest to the goal first: all the way, half of it .. and one."""
    step, out = abs(value - goal), []
    while step:
        out.append(value - step if value > goal else value + step)
        step //= 2
    return out


def smaller_numbers(unit: Unit) -> Iterator[List[Unit]]:
    """Yields, for each number of a packet, the units with a simpler one."""
    for at, shift, width in fields_of(unit):
        value, goal = value_of(unit.words[at], shift, width), goal_of(unit, at)
        if value != goal and not (goal == 1 and not value):
            yield [with_value(unit, (at, shift, width), new) for new in nearer(value, goal)]


def cleaned(unit: Unit) -> Unit:
    """Returns the unit without bits that mean nothing."""
    words, texcoords = list(unit.words), 0
    if unit.name in (COPY, LOAD, STORE):
        words[0] &= 0xE0000000
    if unit.name == LOAD:
        words[1] &= USED['corner']
        return unit.with_words(words)
    for at, kind in enumerate(layout(unit)):
        words[at] &= USED.get(kind, 0xFFFFFFFF)
        if kind == 'color' and at:
            words[at] &= 0xFFFFFF
        if kind == 'texcoord':
            texcoords += 1
            if texcoords > (2 if unit.name == POLYGON else 1):
                words[at] &= 0xFFFF
    return unit.with_words(words)


def fewer_reads(unit: Unit) -> Iterator[Unit]:
    """Yields a run of reads with fewer of them."""
    if len(unit.records) == 1 and not unit.records[0][2]:
        kind, count, words = unit.records[0]
        for fewer in nearer(count, 1):
            yield Unit(unit.name, (), ((kind, fewer, words),))
