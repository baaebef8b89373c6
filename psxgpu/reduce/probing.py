"""Probes: does a capture show the fault? Several at a time, each at most once."""
from __future__ import annotations

import collections
import concurrent.futures
import hashlib
import math
import os
from typing import Callable, Deque, Dict, Iterable, Optional, Tuple, TypeVar

from psxgpu.players.named import Player
from psxgpu.reduce.faults import Fault

T = TypeVar('T')
AHEAD = 2       # probes that wait, for each one that runs


def processor_time() -> float:
    """Returns the seconds of processor time of this process and of its players."""
    t = os.times()
    return t.user + t.system + t.children_user + t.children_system


class Prober:
    """Two players and a fault. `count` is the number of probes so far. `is_plain`: whether each is a run of its own.
    `until`: the processor time after which nothing more is probed."""
    is_plain, until = True, math.inf

    def __init__(self, ours: Player, theirs: Player, fault: Fault, seconds: Optional[float] = None,
                 jobs: Optional[int] = None) -> None:
        self.ours, self.theirs, self.fault, self.seconds = ours, theirs, fault, seconds
        self.jobs = jobs or len(os.sched_getaffinity(0))
        self.pool = concurrent.futures.ThreadPoolExecutor(self.jobs)
        self.known: Dict[bytes, bool] = {}
        self.count = 0

    def look(self, data: bytes) -> bool:
        """Returns whether a part of the user's capture shows the fault. Raises ToolError if a player gives no
        answer."""
        return self.fault.shows(self.ours, self.theirs, data, self.seconds, strict=True)

    def probe(self, data: bytes) -> bool:
        """Returns whether a candidate shows the fault, and keeps the answer. A player need not play it."""
        key = hashlib.sha1(data).digest()
        if key not in self.known:
            self.count += 1
            self.known[key] = self.fault.shows(self.ours, self.theirs, data, self.seconds)
        return self.known[key]

    def first(self, candidates: Iterable[T], bytes_of: Callable[[T], bytes]) -> Optional[T]:
        """Returns the first candidate whose capture shows the fault, or None. Later ones are probed ahead."""
        if processor_time() > self.until:
            return None
        waiting: Deque[Tuple[T, concurrent.futures.Future[bool]]] = collections.deque()
        try:
            for candidate in candidates:
                waiting.append((candidate, self.pool.submit(self.probe, bytes_of(candidate))))
                if len(waiting) > AHEAD * self.jobs:
                    one, job = waiting.popleft()
                    if job.result():
                        return one
            while waiting:
                one, job = waiting.popleft()
                if job.result():
                    return one
            return None
        finally:
            for _, job in waiting:
                job.cancel()

    def settles(self, data: bytes) -> bool:
        """Returns whether a capture that was found shows the fault in the way in which a user plays it."""
        return True

    def close(self) -> None:
        """Ends the threads."""
        self.pool.shutdown(wait=False)
