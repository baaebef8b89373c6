"""The whole way from a flat capture to its reduced one."""
from __future__ import annotations

import math
from typing import Callable, List, NamedTuple, Optional, Sequence

from psxgpu.command import ToolError
from psxgpu.players.beginning import first_bytes
from psxgpu.players.named import Player, expect_dump
from psxgpu.reduce.batches import prober_of
from psxgpu.reduce.faults import BreaksDown, Fault, Pair, WordsDiffer
from psxgpu.reduce.probing import processor_time
from psxgpu.reduce.reducer import Reducer
from psxgpu.reduce.report import Reduced, reduced
from psxgpu.reduce.search import Found, Search
from psxgpu.reduce.state import Tail
from psxgpu.stream import STAT

MOST_TAIL = 4096            # units that are tried after a state


class Wanted(NamedTuple):
    """What is searched: the fault, classes that are ignored, whether the packet keeps its class, its event and the path
    of psxgpu_tool if they are given, and the features without any of which the fault is not there. `most`: seconds of
    processor time, after which the capture stays as it is."""
    fault: Fault
    ignore: List[str]
    keep: bool = False
    event: Optional[int] = None
    program: Optional[str] = None
    without: Sequence[str] = ()
    most: float = math.inf


class Job:
    """Two players and what is wanted. To be used with `with`, which ends the threads."""

    def __init__(self, ours: Player, theirs: Player, wanted: Wanted, seconds: Optional[float] = None,
                 jobs: Optional[int] = None, tell: Callable[[str], None] = lambda text: None) -> None:
        self.prober = prober_of(ours, theirs, wanted.fault, seconds, jobs)
        self.prober.until = processor_time() + wanted.most
        self.wanted, self.tell = wanted, tell

    def __enter__(self) -> Job:
        return self

    def __exit__(self, *_: object) -> None:
        self.prober.close()

    def result(self, flat: str, name: str) -> Optional[Reduced]:
        """Returns the reduced capture of a flat one; None if it does not show the fault."""
        wanted = self.wanted
        search = Search(self.prober, wanted.ignore, wanted.event, wanted.program, self.tell)
        with search.found(flat, name) as found:
            return None if found is None else reduced(self.reducer(found, name), name, found.event)

    def reducer(self, found: Found, name: str) -> Reducer:
        """Returns a reducer that is done."""
        tail = Tail(found.path, name, found.event, MOST_TAIL)
        reducer = Reducer(self.prober, tail.is_tall, self.wanted.ignore, self.tell)
        self.narrow_fault(found, name)

        def dump_at(events: int) -> bytes:
            """Our dump after that many events."""
            return expect_dump(self.prober.ours, first_bytes(found.path, name, events), self.prober.seconds)

        self.prober.fault = Pair(self.wanted.fault, self.wanted.without) if self.wanted.without else self.wanted.fault
        if reducer.start(tail.units, dump_at) is None:
            raise ToolError('%s: event %d differs after all that is before it, and not after a state and %d packets%s'
                          % (name, found.event, len(tail.units) - 1, self.also_without()))
        if self.wanted.event and self.prober.probe(reducer.capture(reducer.units[:-1])):
            raise ToolError('%s: event %d of the flat capture, %s: what differs after it differs before it, too'
                          % (name, found.event, reducer.units[-1].name))
        self.prober.is_plain = self.prober.is_plain or tail.is_tall
        begun, may_change = reducer.units, isinstance(self.wanted.fault, BreaksDown)
        reducer.reduce(self.wanted.keep, may_change)
        was_plain = self.prober.is_plain
        if not self.prober.settles(reducer.capture(reducer.units)):
            reducer.units = begun
        if not was_plain:
            # A player may differ in its dumps alone, and runs of many candidates show what is read.
            self.prober.is_plain = True
            reducer.reduce(self.wanted.keep, may_change)
        self.prober.fault = self.wanted.fault
        return reducer

    def also_without(self) -> str:
        """Returns a hint for an error, if features were to be taken away."""
        return ', or it also differs without ' + ' or '.join(self.wanted.without) if self.wanted.without else ''

    def narrow_fault(self, found: Found, name: str) -> None:
        """Lets the fault be no other one than that which was found: a break-down ends in the same way, and a status
        differs in the same bits."""
        fault, prober = self.prober.fault, self.prober
        data = first_bytes(found.path, name, found.event)
        if isinstance(fault, BreaksDown):
            fault.keep(prober.theirs, data, prober.seconds)
        elif isinstance(fault, WordsDiffer):
            first = fault.first(prober.ours, prober.theirs, data, prober.seconds)
            if first and data[-5] == STAT:     # the tag of the last record
                fault.bits = first.ours ^ first.theirs
