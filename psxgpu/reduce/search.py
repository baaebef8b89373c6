"""Finds the packet at which a flat capture first shows a fault."""
from __future__ import annotations

import contextlib
import os
from typing import Callable, Iterator, List, NamedTuple, Optional

from psxgpu.command import ToolError
from psxgpu.errors import counted
from psxgpu.players.bisection import bisect, build
from psxgpu.players import player
from psxgpu.players.beginning import FIRST_LOOK, beginning
from psxgpu.players.steps import Steps
from psxgpu.reduce.probing import Prober


class Found(NamedTuple):
    """The path of a flat capture, with loads in the place of ignored packets, and the number of the last event of the
    packet that shows the fault."""
    path: str
    event: int


def step_of_event(steps: Steps, name: str, event: int) -> int:
    """Returns the number of the step that has an event."""
    for k in range(1, steps.count + 1):
        if steps.events[k] >= event:
            return k
    raise ToolError('%s: its flat capture has %s' % (name, counted(steps.events[-1], 'event')))


class Search:
    """How the first packet is searched: classes that are ignored, and an event that is given."""

    def __init__(self, prober: Prober, ignore: List[str], event: Optional[int], program: Optional[str],
                 tell: Callable[[str], None] = lambda text: None) -> None:
        self.prober, self.ignore, self.event, self.program, self.tell = prober, ignore, event, program, tell
        self.size = 1               # of the flat capture in bytes

    def steps(self, path: str, name: str) -> Steps:
        """Returns the steps of a flat capture, ignored packets replaced by loads."""
        program = player.find(self.program) if self.ignore else ''
        return build(path, name, self.ignore, program)

    def shows(self, path: str) -> bool:
        """Returns whether a flat capture shows the fault."""
        self.tell('looking for the packet in %d %% of the capture' % min(100, 100 * os.path.getsize(path) // self.size))
        if self.ignore:
            with self.steps(path, path) as steps:
                return self.prober.look(steps.prefixes.data(steps.count))
        with open(path, 'rb') as file:
            return self.prober.look(file.read())

    @contextlib.contextmanager
    def found(self, flat: str, name: str) -> Iterator[Optional[Found]]:
        """Yields the first packet of a flat capture that shows the fault, or that of the given event; None if there is
        no fault."""
        self.size = os.path.getsize(flat)
        with beginning(flat, name, self.shows, self.event or FIRST_LOOK, grows=not self.event) as (path, _):
            with self.steps(path, name) as steps:
                k = self.step(steps, name)
                yield Found(steps.file.name, steps.events[k]) if k is not None else None

    def step(self, steps: Steps, name: str) -> Optional[int]:
        """Returns the first step after which the fault is there, or that of the given event."""
        if self.event:
            k = step_of_event(steps, name, self.event)
            return k if self.prober.look(steps.prefixes.data(k)) else None
        return bisect(steps.count, lambda n: self.prober.look(steps.prefixes.data(n)))
