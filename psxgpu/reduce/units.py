"""A capture as units. Each can be left out, and the others still mean the same.

A unit is a packet with its data words, a control word, or a run of reads. If other events come between the words of a
packet, the packet and these events are one unit (`APART`).
"""
from __future__ import annotations

from array import array
from dataclasses import dataclass
from typing import Dict, Iterable, Iterator, List, Optional, Sequence, Tuple

from psxgpu.packets.grammar import LOAD, data_words
from psxgpu.packets.split import Splitter
from psxgpu.players.steps import Cutter, Step
from psxgpu.stream import GP0, GP1, HEADS, encode
from psxgpu.stream import Record as StreamRecord
from psxgpu.words import corner

APART, CONTROL, OTHER = 'apart', 'control', 'reads'
Record = Tuple[int, int, Tuple[int, ...]]       # kind, count, words
Registers = Dict[int, int]                      # the values of E1h to E6h


@dataclass(frozen=True)
class Unit:
    """`name`: that of a packet, or one of the three above. `words`: those of a packet, or the control word. `records`:
    kind, count and words of each record of what is not one packet."""
    name: str
    words: Tuple[int, ...] = ()
    records: Tuple[Record, ...] = ()

    def encoded(self) -> bytes:
        """Returns the unit as records of a capture."""
        if self.records:
            return b''.join(encode(kind, count, words) for kind, count, words in self.records)
        kind = GP1 if self.name == CONTROL else GP0
        return bytes(encode(kind, len(self.words), self.words))

    @property
    def size(self) -> int:
        """Its words; a record counts as one more."""
        return len(self.words) + sum(1 + len(words) for _, _, words in self.records)

    @property
    def is_packet(self) -> bool:
        """Whether its words are a packet."""
        return bool(self.words) and self.name != CONTROL

    @property
    def opcode(self) -> int:
        """The upper eight bits of its first word."""
        return self.words[0] >> 24

    def with_words(self, words: Sequence[int]) -> Unit:
        """Returns the same unit with other words."""
        return Unit(self.name, tuple(words), self.records)


def capture_of(units: Iterable[Unit], is_tall: bool) -> bytes:
    """Returns the bytes of a capture: version 1, or 3 if video memory is tall."""
    return HEADS[3 if is_tall else 1] + b''.join(unit.encoded() for unit in units) + bytes(4)


def joined(unit: Unit, is_tall: bool) -> Optional[Unit]:
    """Returns a packet whose words were apart, without the events between them; None if that is not one packet."""
    words = [word for kind, _, part in unit.records if kind == GP0 for word in part]
    splitter = Splitter(is_tall)
    packets = list(splitter.push(words))
    return Unit(packets[0][0], tuple(words)) if packets and splitter.is_idle() else None


def registers_after(units: Iterable[Unit], is_tall: bool) -> Registers:
    """Returns the values of E1h to E6h after units."""
    splitter = Splitter(is_tall)
    for unit in units:
        if unit.name == CONTROL:
            splitter.control(unit.words[0])
        elif unit.is_packet:
            for _ in splitter.push(unit.words):
                pass
    return dict(splitter.registers)


class Gatherer:
    """Makes units of the steps of a flat capture, as they come."""

    def __init__(self, is_tall: bool) -> None:
        self.cutter = Cutter(is_tall)
        self.name: str = OTHER
        self.held: List[Step] = []
        self.is_apart = False
        self.pixels = 0         # data words that the load still takes

    @property
    def registers(self) -> Registers:
        """The values of E1h to E6h after the last step."""
        return dict(self.cutter.splitter.registers)

    def unit(self) -> Unit:
        """Returns what is held as a unit."""
        steps, self.held = self.held, []
        if self.is_apart:
            return Unit(APART, (), tuple((step.kind, len(step.words) if step.kind == GP0 else step.count,
                                          tuple(step.words)) for step in steps))
        return Unit(self.name, tuple(word for step in steps for word in step.words))

    def is_whole(self, step: Step) -> bool:
        """Returns whether nothing is unfinished after this step. The splitter takes data words only after their step,
        so they are counted here."""
        if step.name == LOAD:
            self.pixels = data_words(step.words[2])
        elif step.name == 'pixels':
            self.pixels -= len(step.words)
            return self.pixels == 0
        return bool(self.cutter.splitter.is_idle())

    def step(self, step: Step) -> Optional[Unit]:
        """Returns the unit that this step ends, or None."""
        idle = self.is_whole(step)
        if not self.held and step.kind != GP0:
            if step.kind == GP1:
                return Unit(CONTROL, tuple(step.words))
            return Unit(OTHER, (), ((step.kind, step.count, ()),))
        if not self.held:
            self.name, self.is_apart = step.name or APART, False
        self.is_apart = self.is_apart or step.kind != GP0 or step.name is None
        self.held.append(step)
        return self.unit() if idle else None

    def units(self, stream: Iterable[StreamRecord]) -> Iterator[Tuple[Unit, int]]:
        """Yields each unit of records with the number of events up to its end."""
        events = 0
        for step in self.cutter.steps(stream):
            events += len(step.words) if step.kind == GP0 else step.count
            unit = self.step(step)
            if unit:
                yield unit, events
        if self.held:
            yield self.unit(), events


def load_unit(x: int, y: int, w: int, h: int, cells: Iterable[int]) -> Unit:
    """Returns a load of a box, with w * h cells."""
    data = array('H', cells)
    if len(data) % 2:
        data.append(0)
    return Unit(LOAD, (0xA0000000, corner(x, y), corner(w, h), *array('I', data.tobytes())))
