"""One round of simpler forms over all units of a reducer."""
from __future__ import annotations

from typing import Callable, Iterable, Iterator, List, Protocol

from psxgpu.packets.grammar import LOAD
from psxgpu.reduce.loads import apart_loads, halves, is_open, plainer_cells, smaller_boxes
from psxgpu.reduce.numbers import cleaned, fewer_reads, smaller_numbers
from psxgpu.reduce.plainer import plainer
from psxgpu.reduce.shapes import at_zero, halved, moved_copy, moved_target, moved_texture, together
from psxgpu.reduce.units import Registers, Unit

Units = List[Unit]
MOST_WHOLE = 32             # words of a load that is not parted


class Takes(Protocol):
    """What the rounds need of a reducer."""
    units: Units
    is_tall: bool

    def take(self, candidates: Iterable[Units]) -> bool:
        """Continues with the first candidate that shows the fault. Returns whether there is one."""

    def registers(self, units: Units) -> Registers:
        """Returns the values of E1h to E6h after units."""


class Simplifier:
    """Tries simpler forms of each unit, and of the last packet with its loads."""

    def __init__(self, reducer: Takes) -> None:
        self.reducer = reducer

    @property
    def units(self) -> Units:
        """The units of the reducer."""
        return self.reducer.units

    def replaced(self, at: int, unit: Unit) -> Units:
        """Returns the units with another one at `at`."""
        return self.units[:at] + [unit] + self.units[at + 1:]

    def unit(self, at: int, *forms: Callable[[Unit], Iterable[Unit]]) -> None:
        """Takes simpler forms of a unit as long as there are some. forms: functions that yield candidates."""
        while any(self.reducer.take(self.replaced(at, unit) for unit in form(self.units[at])) for form in forms):
            pass

    def numbers(self, at: int) -> None:
        """Makes each number of a packet smaller, once; what another one hinders is tried in the next round."""
        for k in range(len(list(smaller_numbers(self.units[at])))):
            choices = list(smaller_numbers(self.units[at]))
            if k < len(choices):
                self.reducer.take(self.replaced(at, unit) for unit in choices[k])

    def load(self, at: int) -> int:
        """Makes a load smaller, or two of it if these have fewer words. Returns how many it is now."""
        self.unit(at, smaller_boxes)
        unit = self.units[at]
        if unit.size < MOST_WHOLE or at == len(self.units) - 1 or is_open(unit):
            return 1
        before = self.units
        self.reducer.units = self.units[:at] + halves(unit) + self.units[at + 1:]
        count = self.load(at)
        count += self.load(at + count)
        if sum(one.size for one in self.units[at:at + count]) >= unit.size:
            self.reducer.units, count = before, 1
        return count

    def at(self, at: int) -> int:
        """Simplifies a unit. Returns how many units it is now."""
        unit = self.units[at]
        if unit.records:
            self.unit(at, fewer_reads, apart_loads)
        if not unit.is_packet:
            return 1
        self.unit(at, lambda it: [cleaned(it)], lambda it: plainer(it, self.reducer.is_tall))
        count = 1
        if self.units[at].name == LOAD:
            count = self.load(at)
            for k in range(at, at + count):
                self.unit(k, plainer_cells)
        self.numbers(at)
        return count

    def last_packet(self) -> int:
        """Returns the number of the last packet: what follows it are reads."""
        return max((at for at, unit in enumerate(self.units) if unit.is_packet), default=len(self.units) - 1)

    def together(self) -> None:
        """Makes the last packet smaller or moves it, the loads that it reads with it."""
        at = self.last_packet()
        last = at == len(self.units) - 1
        if not self.units[at].is_packet:
            return
        while self.reducer.take(self.sized(at)):
            pass
        if last:
            self.unit(at, lambda it: plainer(it, self.reducer.is_tall), at_zero, halved)
        if last:
            self.reducer.take(moved_copy(self.units))
        for move in (moved_target, moved_texture) if last and self.units[-1].is_packet else ():
            self.reducer.take(move(self.units, self.reducer.registers(self.units)))

    def sized(self, at: int) -> Iterator[Units]:
        """Yields the units with a smaller packet at `at`."""
        return together(self.units, at, self.reducer.registers(self.units[:at + 1]))

    def once(self) -> bool:
        """One round over all units. Returns whether something changed."""
        before = self.units
        self.together()
        at = 0
        while at < len(self.units):
            at += self.at(at)
        return self.units != before
