"""Faults by the table of rule by packet: what may be wrong with a rule, for each kind of packet that has it."""
from __future__ import annotations

from collections.abc import Callable
from typing import Any, NamedTuple, Optional, Tuple

from suite_trials.kinds import KindMachine
from psxgpu.conformance.packets import COPY, FILL, KINDS, LOADS, TRANSFERS, Kind
from psxgpu.conformance.table import REASONS

Broken = Callable[..., Any]         # the machine, the method without the fault, and its arguments
K = KindMachine
PLOTS = {FILL: 'fill_cell', COPY: 'plot', LOADS[0]: 'load_cell', LOADS[1]: 'load_cell'}


class TableFault(NamedTuple):
    """A fault of a rule in a kind of packet, and the method of the model that is replaced."""
    rule: str
    says: str
    kind: Kind
    method: str
    broken: Broken


FAULTS: list[TableFault] = []


def every(kind: Kind) -> bool:
    return True


def where(rule: str, says: str, method: str, broken: Broken, is_it: Callable[[Kind], bool] = every) -> None:
    """Plants a fault in each kind of packet that has the rule and is accepted."""
    FAULTS.extend(TableFault(rule, says, kind, method, broken) for kind in KINDS
                  if not REASONS[rule](kind) and is_it(kind))


def is_drawn(kind: Kind) -> bool:
    return kind.family != TRANSFERS


def of(family: str) -> Callable[[Kind], bool]:
    return lambda kind: kind.family == family


def shape(text: str) -> Callable[[Kind], bool]:
    return lambda kind: kind.shape.startswith(text)


def is_raw(kind: Kind) -> bool:
    return 'raw' in kind.look


def moved(rule: str, says: str, broken: Callable[..., Optional[Tuple[int, int]]]) -> None:
    """Plants a fault in each transfer: other places for its cells, or None for a cell that is left out."""
    def put(m: K, old: Broken, x: int, y: int, value: int) -> None:
        place = broken(m, x, y)
        if place:
            old(m, *place, value)
    for kind, method in PLOTS.items():
        where(rule, says, method, put, kind.__eq__)

    def got(m: K, old: Broken, x: int, y: int) -> int:
        place = broken(m, x, y)
        return int(old(m, *place)) if place else 0
    where(rule, says, 'read_cell', got, shape('store'))
