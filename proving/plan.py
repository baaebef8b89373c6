"""The crates of the repository, what of them is left to prove, and in which order.

    python3 -m proving.plan CRATE [JOBS]

prints how many processors prove a crate if no other crate is proved at the same time: at most JOBS, and no more than
memory allows.
"""
import os
import shutil
import sys
from typing import Dict, List, Optional, Set, Tuple

ROOT = os.path.dirname(os.path.dirname(os.path.abspath(__file__)))
PARTS = ('src', 'specs', 'proofs')
# Processor seconds that crates took, as they were measured (times.py).
TIMES = os.path.join(ROOT, 'proving', 'seconds.txt')
# What proving takes where it was not measured: seconds for a crate, and for each of its lines.
SECONDS, SECONDS_A_LINE = 30, 0.038
# A run takes this many times the time that it would take if all processors worked all the time.
LOSS = 1.45
# The memory of a check in bytes: for a crate, and for each of its lines.
BYTES, BYTES_A_LINE = 800_000_000, 200_000
MOST_JOBS = 4
# The part of free memory that checks may take.
ROOM = 0.85


def read_crates() -> Dict[str, List[str]]:
    """Returns the crates of the repository, each with those that it stands on."""
    needs = {}
    with open(os.path.join(ROOT, 'crates.txt'), encoding='utf-8') as file:
        for line in file:
            name, colon, below = line.split('#')[0].partition(':')
            if colon:
                needs[name.split()[0]] = below.split()
    return {name: [it for it in below if it in needs] for name, below in needs.items()}


def all_below(needs: Dict[str, List[str]], top: str) -> List[str]:
    """Returns the crates that one stands on, each after those that it stands on itself."""
    found: List[str] = []
    for name in needs[top]:
        found += [it for it in [*all_below(needs, name), name] if it not in found]
    return found


def sources_of(crate: str) -> List[str]:
    """Returns the files of a crate that decide what is proved."""
    return [os.path.join(folder, name) for part in PARTS
            for folder, _, names in os.walk(os.path.join(ROOT, 'crates', crate, part)) for name in names]


def is_known(crate: str) -> bool:
    """Returns whether a crate was proved as it is, by the `rt` that is installed, if those below it were."""
    stamp = os.path.join(ROOT, 'crates', crate, 'out', 'rlib', 'stamp')
    if not os.path.exists(stamp):
        return False
    proved, kit = os.path.getmtime(stamp), shutil.which('rt')
    return (all(os.path.getmtime(it) <= proved for it in sources_of(crate))
            and (kit is None or os.stat(os.path.realpath(kit)).st_ctime <= proved))


def count_lines(crate: str) -> int:
    """Returns how many lines of code, definitions and proofs a crate has."""
    total = 0
    for name in sources_of(crate):
        with open(name, 'rb') as file:
            total += file.read().count(b'\n')
    return total


def measured() -> Dict[str, float]:
    """Returns the processor seconds of the crates whose proof was timed; none where there is no file of times."""
    try:
        with open(TIMES, encoding='utf-8') as file:
            rows = [line.split() for line in file if line.strip() and not line.startswith('#')]
    except FileNotFoundError:
        return {}
    return {name: float(seconds) for name, seconds in rows}


def seconds_of(crate: str, times: Dict[str, float]) -> float:
    """Returns the processor seconds that a crate takes: as measured, else by its lines."""
    return times[crate] if crate in times else SECONDS + SECONDS_A_LINE * count_lines(crate)


def free_memory() -> int:
    """Returns the memory that may be had, in bytes; where the system doesn't say, none."""
    try:
        with open('/proc/meminfo', encoding='utf-8') as file:
            return next(1024 * int(line.split()[1]) for line in file if line.startswith('MemAvailable:'))
    except (OSError, StopIteration):
        return 0


def memory_of(lines: int) -> float:
    """Returns the bytes of memory that a check of `lines` lines takes with one processor."""
    return BYTES + BYTES_A_LINE * lines


def taken(memory: float, jobs: int) -> float:
    """Returns the memory that a check takes with `jobs` processors, if it takes `memory` with one."""
    return memory * (0.4 + 0.6 * jobs)


def jobs_alone(crate: str, most: int) -> int:
    """Returns how many processors, at most `most`, prove a crate if no other crate is proved at the same time."""
    room, memory = ROOM * free_memory(), memory_of(count_lines(crate))
    return max((it for it in range(1, min(most, MOST_JOBS) + 1) if taken(memory, it) <= room), default=1)


class Plan:
    """What is left to prove, and what may be begun next."""

    def __init__(self, needs: Dict[str, List[str]], left: List[str], jobs: Optional[int]):
        """Plans for the crates that are `left`, lowest first. `jobs`: how many at a time, each by one processor."""
        lines, self.times = {name: count_lines(name) for name in left}, measured()
        self.below: Dict[str, Set[str]] = {name: {*all_below(needs, name)} & {*left} for name in left}
        self.seconds = {name: seconds_of(name, self.times) for name in left}
        self.memory = {name: memory_of(lines[name]) for name in left}
        self.fixed = jobs is not None
        self.lanes = jobs or len(os.sched_getaffinity(0))
        self.room = ROOM * free_memory()
        # A crate and the longest chain of crates that wait for it.
        self.chain: Dict[str, float] = {}
        for name in reversed(left):
            above = [self.chain[it] for it in left if name in self.below[it]]
            self.chain[name] = self.seconds[name] + max(above, default=0)
        self.left = list(left)
        self.done: Set[str] = set()
        self.running: Dict[str, Tuple[int, float]] = {}

    def minutes(self, top: str) -> int:
        """Returns about how long it takes, with the crate on top."""
        seconds = sum(self.seconds.values()) + seconds_of(top, self.times)
        return round(seconds * (1 if self.lanes == 1 else LOSS) / self.lanes / 60 + 0.5)

    def begin(self) -> Optional[Tuple[str, int]]:
        """Takes the next crate, and says by how many processors; None where none can be begun now.

        First comes the one with the longest chain. It gets the processors that no other waits for. Where its chain is
        longer than all that is left, evenly shared, and than those of all that run, it gets all but one for each other
        that is ready, and at least two. Some of these may be in use: what uses them ends before it, and little is ready
        to take their place.
        """
        ready = sorted((it for it in self.left if self.below[it] <= self.done), key=lambda it: -self.chain[it])
        idle = self.lanes - sum(jobs for jobs, _ in self.running.values())
        room = self.room - sum(memory for _, memory in self.running.values())
        work = sum(self.seconds[it] for it in (*self.left, *self.running))
        for at, name in enumerate(ready):
            if idle > 0 and (not self.running or self.memory[name] <= room):
                most = max(idle // (len(ready) - at), 1)
                if self.chain[name] > max([work / self.lanes, *(self.chain[it] for it in self.running)]):
                    most = max(most, self.lanes - (len(ready) - 1), 2)
                most = 1 if self.fixed else min(most, self.lanes, MOST_JOBS)
                jobs = max((it for it in range(1, most + 1) if self.taken(name, it) <= room), default=1)
                self.left.remove(name)
                self.running[name] = jobs, self.taken(name, jobs)
                return name, jobs
        return None

    def taken(self, name: str, jobs: int) -> float:
        """Returns the memory that the check of a crate takes with `jobs` processors."""
        return taken(self.memory[name], jobs)

    def end(self, name: str) -> None:
        """Notes that a crate is proved."""
        del self.running[name]
        self.done.add(name)


if __name__ == '__main__':
    print(jobs_alone(sys.argv[1], int(sys.argv[2]) if len(sys.argv) > 2 else len(os.sched_getaffinity(0))))
