"""A plain model of the machine, for the planted faults of `faults` and the changes of `mutants`.

It follows docs/MACHINE.md, one small method a rule, so that a fault is one method that is replaced. It is slow, and
made for captures as small as those of the suite. Each module adds to the machine of the one before it.
"""
from __future__ import annotations

from collections.abc import Callable
from typing import Any, List, Optional, Tuple

from suite_trials.model.machine import Machine
from psxgpu.capture import BEGIN, DMA, GP0, GP1, RAM, READ, SKIP, STAT, TURN, events, records
from psxgpu.players.named import Done, Player

__all__ = ['Machine', 'Model']


class Model(Player):
    """The model as a player: a fault is methods that are replaced."""
    text = 'the plain model'
    machine = Machine

    def __init__(self, **changes: Callable[..., Any]) -> None:
        self.changes = changes
        self.played: Optional[Tuple[bytes, Machine, bytes]] = None

    def run(self, mode: str, data: bytes, seconds: Optional[float] = None) -> Done:
        try:
            if self.played is None or self.played[0] != data:
                self.played = (data, *self.play(data))
        except (IndexError, StopIteration) as error:            # a planted fault may break the machine
            return Done(1, b'', b'the model broke: %r' % str(error))
        _, machine, printed = self.played
        if mode == 'vram':
            return Done(0, machine.cells.tobytes(), b'')
        if mode == 'play':
            return Done(0, printed, b'')
        shown = machine.shot()
        return Done(0, shown, b'') if shown else Done(2, b'', b'no picture')

    def play(self, data: bytes) -> Tuple[Machine, bytes]:
        """Returns the machine after a capture, and the words that it printed."""
        version, parts = records(data)
        machine = self.machine(version == 3, **self.changes)
        printed: List[str] = []
        for kind, count, words in events(parts):
            self.event(machine, printed, kind, count, words)
        return machine, ''.join(printed).encode()

    @staticmethod
    def event(machine: Machine, printed: List[str], kind: int, count: int, words: List[int]) -> None:
        """Plays one event."""
        if kind == RAM:
            machine.memory[words[0]] = words[1]
        elif kind == GP0:
            machine.gp0(words[0])
        elif kind == GP1:
            machine.gp1(words[0])
        elif kind in (READ, SKIP):
            word = machine.read()
            printed += ['%08x\n' % word] if kind == READ else []
        elif kind == STAT:
            printed.append('%08x\n' % machine.status())
        elif kind == DMA:
            machine.dma(count, *words)
        elif kind == BEGIN:
            machine.begin(words[0], words[1], words[2])
        elif kind == TURN:
            machine.turn()
