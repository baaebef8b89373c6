"""Makes a capture smaller as long as it shows the fault: fewer units, then simpler ones, until nothing helps."""
from __future__ import annotations

from typing import Callable, Iterable, List, Optional, Set, Tuple

from psxgpu.packets.known import CLASSES, classes_of
from psxgpu.packets.grammar import ENVIRONMENT, LOAD
from psxgpu.packets.split import Splitter
from psxgpu.players.named import dump_of
from psxgpu.reduce.cost import is_simpler
from psxgpu.reduce.needs import DRAWN, sources_of
from psxgpu.reduce.probing import Prober
from psxgpu.reduce.simplify import Simplifier
from psxgpu.reduce.state import Placed, box_cells, memory_units, state_units
from psxgpu.reduce.units import (APART, CONTROL, Registers, Unit, capture_of, joined, load_unit, registers_after)

Units = List[Unit]
PROPERTIES = 0x17           # bits of an opcode that make a class: shaded, textured, semi-transparent, raw
COLUMNS = 1024


def known_classes(units: Iterable[Unit], is_tall: bool) -> Set[str]:
    """Returns the classes of known differences that packets of these units are in, and the names of the packets."""
    splitter, found = Splitter(is_tall), set()      # type: Splitter, Set[str]
    for unit in units:
        if unit.name == CONTROL:
            splitter.control(unit.words[0])
        for name, packet, _ in splitter.push(unit.words) if unit.is_packet else ():
            found.add(name)
            found |= classes_of(name, packet, splitter.registers)
    return found


def class_of(unit: Unit) -> Tuple[str, int]:
    """Returns what `--keep` keeps of a packet."""
    return unit.name, unit.opcode & PROPERTIES if unit.words else 0


def is_area_end(unit: Unit) -> bool:
    """Returns whether a unit sets the end of the drawing area. After a reset that is the first cell, and players differ
    there by faults of their own."""
    return unit.name == ENVIRONMENT and unit.opcode == 0xE4


class Reducer:
    """`units` is the smallest capture so far. Its last unit is the one that shows the fault.

    `barred`: classes of packets that may not come in: the fault would become another one. `kept`: the class of the last
    packet, if it has to stay."""

    def __init__(self, prober: Prober, is_tall: bool, barred: Iterable[str] = (),
                 tell: Callable[[str], None] = lambda text: None) -> None:
        self.prober, self.is_tall, self.tell = prober, is_tall, tell
        self.units: Units = []
        self.begun = 0              # the number of units at the start
        self.kept: Optional[Tuple[str, int]] = None
        self.barred = set(barred)

    def capture(self, units: Units) -> bytes:
        """Returns units as a capture."""
        return capture_of(units, self.is_tall)

    def registers(self, units: Units) -> Registers:
        """Returns the values of E1h to E6h after units."""
        return registers_after(units, self.is_tall)

    def is_allowed(self, units: Units) -> bool:
        """Returns whether no packet enters a barred class, and the last one stays in the kept one."""
        if self.kept and class_of(units[-1]) != self.kept:
            return False
        return not self.barred or not known_classes(units, self.is_tall) & self.barred

    def take(self, candidates: Iterable[Units]) -> bool:
        """Continues with the first of several lists of units that is strictly simpler, allowed, and shows the fault.
        Returns whether there is one."""
        good = (units for units in candidates
                if is_simpler(units, self.units, self.is_tall) and self.is_allowed(units))
        found = self.prober.first(good, self.capture)
        if found is None:
            return False
        self.units = list(found)
        self.tell('%d of %d packets, %d words, %d probes'
                  % (len(found), self.begun, sum(unit.size for unit in found), self.prober.count))
        return True

    def start(self, tail: Iterable[Placed], dump_at: Callable[[int], bytes]) -> Optional[int]:
        """Starts from the shortest window of units that shows the fault after a state, which is loads and registers.
        `dump_at(events)` is video memory after that many events. Returns how many units are before the last one in
        the window; None if the fault needs what no state has."""
        placed, count = list(tail), 0
        while True:
            count = min(count, len(placed) - 1)
            window = placed[-1 - count:]
            first = window[0]
            state = state_units(first.registers, first.controls)
            units = (memory_units(dump_at(first.events)) if first.events else []) + state + [it.unit for it in window]
            if self.is_allowed(units) and self.prober.probe(self.capture(units)):
                self.units, self.begun = units, len(units)
                return count
            if count == len(placed) - 1:
                return None
            count = 2 * count or 1

    def guess(self) -> None:
        """Without the loads before the last unit, or with the cells alone that it reads by its fields."""
        loads = [unit for unit in self.units[:-1] if unit.name == LOAD]
        last = self.units[-1]
        if not loads:
            return
        others = [unit for unit in self.units[:-1] if unit.name != LOAD] + [last]
        boxes = sources_of(last.name, last.words, self.registers(self.units)) if last.is_packet else []
        dump = dump_of(self.prober.ours.run('vram', self.capture(self.units[:-1]), self.prober.seconds))
        parts = []
        if dump is not None:
            parts = [load_unit(*box, box_cells(dump, *box)) for box in boxes
                     if box[2] <= COLUMNS and box[1] + box[3] <= len(dump) // (2 * COLUMNS)]
        self.take([others] + [[part] + others for part in parts] + [parts + others])

    def without(self, begin: int, end: int) -> Units:
        """Returns the units without some. The end of the drawing area stays if something is drawn."""
        rest = self.units[:begin] + self.units[end:]
        if not any(unit.name in DRAWN for unit in rest):
            return rest
        return self.units[:begin] + [unit for unit in self.units[begin:end] if is_area_end(unit)] + self.units[end:]

    def fewer(self) -> None:
        """Leaves out units, in ever smaller groups."""
        count = len(self.units) - 1
        size = max(1, count // 2)
        while count:
            if self.take(self.without(at, min(at + size, count)) for at in range(0, count, size)):
                count = len(self.units) - 1
            elif size == 1:
                return
            else:
                size //= 2

    def shorter(self) -> None:
        """Leaves out the last unit as long as what is before it shows the fault, too."""
        while len(self.units) > 1 and self.units[-2].is_packet and self.take([self.units[:-1]]):
            pass

    def join(self) -> None:
        """Makes packets whose words are apart whole, if nothing between them counts."""
        for at, unit in enumerate(self.units):
            whole = joined(unit, self.is_tall) if unit.name == APART else None
            if whole:
                self.take([self.units[:at] + [whole] + self.units[at + 1:]])

    def reduce(self, keep: bool = False, may_change_class: bool = False) -> None:
        """Reduces `units` until nothing is simpler. keep: the last packet keeps its class. Unless
        `may_change_class`, no packet enters a class of known differences that none is in now."""
        self.join()
        if keep:
            self.kept = class_of(self.units[-1])
        if not may_change_class:
            self.barred |= set(CLASSES) - known_classes(self.units, self.is_tall)
        self.guess()
        self.fewer()
        simplifier = Simplifier(self)
        while simplifier.once():
            self.fewer()
            self.shorter()
