"""Two players on the same steps of a capture."""
from __future__ import annotations

import concurrent.futures
from typing import Optional, Tuple

from psxgpu.command import ToolError
from psxgpu.difference import compared
from psxgpu.players.named import Player, dump_of, expect_dump
from psxgpu.players.steps import Steps

SPARED = 8      # a snapshot is made if at most one of so many steps is left


def dumps_of(ours: Player, theirs: Player, data: bytes, short: Optional[bytes] = None) -> Tuple[bytes, bytes]:
    """Returns both dumps of a capture. Both players run at the same time. `short`: what ours plays instead."""
    with concurrent.futures.ThreadPoolExecutor(1) as pool:
        other = pool.submit(expect_dump, theirs, data)
        one = expect_dump(ours, data if short is None else short)
        out = one, other.result()
    if len(out[0]) != len(out[1]):
        raise ToolError('dumps of %d and %d bytes' % (len(out[0]), len(out[1])))
    return out


def dumps_differ(dumps: Tuple[bytes, bytes], tolerance: int) -> bool:
    """Returns whether two dumps differ by more than a tolerance."""
    one, other = dumps
    return one != other and (not tolerance or compared(one, other, tolerance).count > 0)


class Players:
    """Two players, and whether their dumps after a step differ. `program`: the path of psxgpu_tool, which makes
    snapshots."""

    def __init__(self, ours: Player, theirs: Player, tolerance: int, steps: Steps, program: str) -> None:
        self.ours, self.theirs, self.tolerance = ours, theirs, tolerance
        self.steps, self.program = steps, program
        self.prefixes = steps.prefixes      # what ours reads
        self.has_tried = False              # whether ours was given a snapshot

    def dumps(self, k: int) -> Tuple[bytes, bytes]:
        """Returns both dumps after step k."""
        short = None if self.prefixes is self.steps.prefixes else self.prefixes.data(k)
        return dumps_of(self.ours, self.theirs, self.steps.prefixes.data(k), short)

    def differ(self, k: int) -> bool:
        """Returns whether the dumps after step k differ."""
        return dumps_differ(self.dumps(k), self.tolerance)

    def narrow(self, low: int, high: int) -> None:
        """Lets ours begin from a snapshot after step `low`, if it reads snapshots and that leaves little to play."""
        if self.has_tried or not 0 < low or (high - low) * SPARED > low:
            return
        self.has_tried = True
        prefixes = self.steps.ahead(self.program, low, high)
        short, whole = (dump_of(self.ours.run('vram', it.data(low))) for it in (prefixes, self.steps.prefixes))
        if short is not None and short == whole:
            self.prefixes = prefixes
