"""The state before a packet as units: video memory in loads, registers, control words."""
from __future__ import annotations

import collections
from array import array
from typing import Deque, Dict, List, NamedTuple

from psxgpu.reduce.units import CONTROL, Gatherer, Registers, Unit, load_unit
from psxgpu.stream import Stream, first_events

ROWS_AT_ONCE, COLUMNS_AT_ONCE, COLUMNS = 256, 512, 1024
KEPT_CONTROLS = range(3, 10)    # opcodes of GP1 whose last word is in force
Controls = Dict[int, int]       # by opcode


class Placed(NamedTuple):
    """A unit, how many events are before it, and the registers and control words in force there."""
    unit: Unit
    events: int
    registers: Registers
    controls: Controls


class Tail:
    """The last `most` units of the first `events` events of a flat capture."""

    def __init__(self, path: str, name: str, events: int, most: int) -> None:
        self.units: Deque[Placed] = collections.deque(maxlen=most)
        with open(path, 'rb') as file:
            stream = Stream(file, name)
            self.is_tall: bool = stream.version == 3
            gatherer = Gatherer(self.is_tall)
            registers, controls, at = gatherer.registers, {}, 0     # type: Registers, Controls, int
            for unit, end in gatherer.units(first_events(stream, events)):
                self.units.append(Placed(unit, at, registers, controls))
                if unit.name == CONTROL:
                    controls = controls_after(controls, unit.words[0])
                registers, at = gatherer.registers, end


def controls_after(controls: Controls, word: int) -> Controls:
    """Returns the control words in force after one more."""
    opcode = word >> 24 & 0x3F
    if opcode == 0:
        return {}
    return {**controls, opcode: word} if opcode in KEPT_CONTROLS else controls


def box_cells(dump: bytes, x: int, y: int, w: int, h: int) -> array[int]:
    """Returns the cells of a box of a dump, row by row. A box that reaches over an edge goes on at the opposite one."""
    rows, left = len(dump) // (2 * COLUMNS), x % COLUMNS
    out = array('H')
    for row in range(y, y + h):
        at = row % rows * COLUMNS
        line = dump[2 * at:2 * (at + COLUMNS)]
        out.frombytes(line[2 * left:2 * (left + w)])
        out.frombytes(line[:2 * max(0, left + w - COLUMNS)])
    return out


def state_units(registers: Registers, controls: Controls) -> List[Unit]:
    """Returns what sets control words and registers. Registers that are 0 are left out: so they are after a reset."""
    setting = [Unit('environment', (opcode << 24 | value,)) for opcode, value in registers.items() if value]
    return [Unit(CONTROL, (word,)) for _, word in sorted(controls.items())] + setting


def memory_units(dump: bytes) -> List[Unit]:
    """Returns loads of 512 by 256 for all of video memory, without those that are zero."""
    boxes = ((x, y, COLUMNS_AT_ONCE, ROWS_AT_ONCE) for y in range(0, len(dump) // (2 * COLUMNS), ROWS_AT_ONCE)
             for x in range(0, COLUMNS, COLUMNS_AT_ONCE))
    units = []
    for box in boxes:
        cells = box_cells(dump, *box)
        if any(cells):
            units.append(load_unit(*box, cells))
    return units
