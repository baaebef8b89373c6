"""The plain model with the kinds of packet that it draws at the time, so that a fault can be that of one kind."""
from __future__ import annotations

from collections.abc import Callable, Iterator
from typing import Any

from suite_trials.model import Machine, Model
from suite_trials.model.values import Vertex
from psxgpu.conformance.packets import COPY, DRAWERS, FILL, LOADS, STORES, Kind

OF_OPCODE = {drawer.opcode: drawer.kinds for drawer in DRAWERS}


def kinds_of(first: int) -> tuple[Kind, ...]:
    """Returns the kinds of a packet by its first word; () for one that is not in the table."""
    opcode = first >> 24 & 0xFD
    fields = {1: 0x3D, 2: 0x58, 3: 0x7D}.get(first >> 29)
    if fields:
        opcode &= fields if opcode & 4 or first >> 29 == 2 else fields & ~1
        return OF_OPCODE[opcode]
    return {0x00: (FILL,) if first >> 24 == 2 else (), 0x80: (COPY,), 0xA0: LOADS, 0xC0: STORES}.get(opcode & 0xE0, ())


class KindMachine(Machine):
    """`kinds`: what is drawn or moved at the time. `first`: the first word of the packet. `corner`: of a rectangle."""
    kinds: tuple[Kind, ...] = ()
    first = 0
    corner = Vertex(0)
    count = 0                       # of the halves of a load or a store
    rows_filled = 0                 # of the last fill

    def polygon(self, words: list[int]) -> None:
        self.first = words[0]
        super().polygon(words)

    def halves_of(self, vertices: list[Vertex]) -> Iterator[tuple[Vertex, ...]]:  # type: ignore[override]
        for kind, points in zip(kinds_of(self.first), super().halves_of(vertices)):
            self.kinds = (kind,)
            yield points

    def rectangle(self, words: list[int]) -> None:
        self.first, self.kinds = words[0], kinds_of(words[0])
        self.corner = self.placed(Vertex(words[1]))
        super().rectangle(words)

    def line(self, words: list[int]) -> None:
        self.first, self.kinds = words[0], kinds_of(words[0])[:1]
        super().line(words)

    def joint_word(self, word: int) -> None:
        self.kinds = kinds_of(self.first)[1:]
        super().joint_word(word)

    def fill(self, words: list[int]) -> None:
        self.kinds, self.rows_filled = (FILL,), words[2] >> 16 & 0x1FF
        super().fill(words)

    def copy(self, words: list[int]) -> None:
        self.kinds = (COPY,)
        super().copy(words)

    def load(self, words: list[int]) -> None:
        self.kinds, self.count = LOADS, 0
        super().load(words)

    def load_plot(self, x: int, y: int, value: int) -> None:
        self.kinds, self.count = (LOADS[self.count & 1],), self.count + 1
        self.load_cell(x, y, value)

    def load_cell(self, x: int, y: int, value: int) -> None:
        super().load_plot(x, y, value)

    def store(self, words: list[int]) -> None:
        self.kinds, self.count = STORES, 0
        super().store(words)

    def stored_cell(self, x: int, y: int) -> int:
        self.kinds, self.count = (STORES[self.count & 1],), self.count + 1
        return self.read_cell(x, y)

    def read_cell(self, x: int, y: int) -> int:
        return super().stored_cell(x, y)

    def depth(self) -> int:
        return self.e1 >> 7 & 3

    def pending(self) -> tuple[Kind, ...]:
        """Returns the kinds of what is unfinished."""
        if self.loading is not None:
            return LOADS
        if self.words:
            return kinds_of(self.words[0])
        return kinds_of(self.joint[0])[1:] if self.joint else STORES if self.storing is not None else ()


class KindModel(Model):
    """The model that knows the kinds of packet."""
    machine = KindMachine


def planted(is_it: Callable[[Kind], bool], method: str, broken: Callable[..., Any]) -> KindModel:
    """Returns a model that has a fault in some kinds of packet. `broken` has the machine, the method without the fault,
    and its arguments."""
    whole = getattr(KindMachine, method)

    def changed(m: KindMachine, *words: Any) -> Any:
        is_there = any(map(is_it, m.pending() if method == 'gp1' else m.kinds))
        return broken(m, whole, *words) if is_there else whole(m, *words)
    return KindModel(**{method: changed})
