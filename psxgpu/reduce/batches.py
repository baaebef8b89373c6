"""Probes of many candidates in one run of each player, for players that know `play`. What is left at the end is probed
by dumps, as without it."""
from __future__ import annotations

import itertools
from typing import Callable, Iterable, Iterator, List, Optional, Sequence, TypeVar, cast

from psxgpu.command import ToolError
from psxgpu.players.bench import Bench, Experiment, boxes_of
from psxgpu.players.named import Player
from psxgpu.players.probes import size
from psxgpu.players.trial_run import OURS, THEIRS, try_words
from psxgpu.reduce.faults import DumpsDiffer, Fault, Pair
from psxgpu.reduce.features import FEATURES
from psxgpu.reduce.probing import Prober
from psxgpu.reduce.units import Unit

T = TypeVar('T')
LEAST, MOST, MOST_WORDS = 4, 32, 1 << 16    # candidates of one run, and their words


def experiment_of(units: Iterable[Unit]) -> Experiment:
    """Returns units as an experiment: registers that they do not set are those of a reset."""
    return (*((opcode << 24,) for opcode in range(0xE1, 0xE7)), *(unit.words for unit in units))


def without(feature: str, experiment: Experiment) -> Experiment:
    """Returns an experiment without a feature."""
    return tuple(map(FEATURES[feature], experiment))


def words_of(units: List[Unit]) -> int:
    """Returns the number of words that a run has for a candidate: its own, and those of the cells that it may write."""
    seen, loaded = boxes_of(experiment_of(units)) if is_plain(units) else ([], [])
    return sum(unit.size for unit in units) + sum(map(size, (*seen, *loaded)))


def is_plain(units: List[Unit]) -> bool:
    """Returns whether all units are packets."""
    return all(unit.is_packet for unit in units)


class BatchProber(Prober):
    """Probes candidates that are packets alone in batches. `look`: how players have to differ, if it is given."""

    def __init__(self, ours: Player, theirs: Player, fault: Fault, seconds: Optional[float] = None,
                 jobs: Optional[int] = None, look: Optional[str] = None) -> None:
        super().__init__(ours, theirs, fault, seconds, jobs)
        self.bench, self.wanted, self.is_plain = Bench(ours, theirs, (), seconds), look, False
        self.batch = LEAST

    def shown(self, candidates: Sequence[Experiment]) -> List[bool]:
        """Returns whether each candidate shows the fault."""
        features = self.fault.features if isinstance(self.fault, Pair) else ()
        forms = [[one, *(new for new in (without(it, one) for it in features) if new != one)] for one in candidates]
        verdicts = iter(self.bench.judge([form for group in forms for form in group]))
        found = [[self.shows(next(verdicts).looks) for _ in group] for group in forms]
        return [shows == [True] + [False] * (len(shows) - 1) for shows in found]

    def shows(self, looks: Iterable[str]) -> bool:
        """Returns whether players that differ in this way show the fault."""
        return self.wanted in looks if self.wanted else bool(looks)

    def groups(self, candidates: Iterable[T]) -> Iterator[List[T]]:
        """Yields the candidates in groups for one run."""
        waiting = iter(candidates)
        for first in waiting:
            most = max(1, min(self.batch, MOST_WORDS // words_of(cast(List[Unit], first))))
            yield [first, *itertools.islice(waiting, most - 1)]
            self.batch = min(MOST, 2 * self.batch)

    def first(self, candidates: Iterable[T], bytes_of: Callable[[T], bytes]) -> Optional[T]:
        self.batch = LEAST
        for group in self.groups(candidates):
            lists = cast(List[List[Unit]], group)
            if self.is_plain or words_of(lists[0]) > MOST_WORDS or not all(map(is_plain, lists)):
                found = super().first(group, bytes_of)
                if found is not None:
                    return found
                continue
            self.count += len(group)
            for one, holds in zip(group, self.shown(list(map(experiment_of, lists)))):
                if holds:
                    return one
        return None

    def settles(self, data: bytes) -> bool:
        """Returns whether dumps show the fault, too. If they do not, the next probes are by dumps."""
        self.is_plain = not self.probe(data)
        return not self.is_plain


def prober_of(ours: Player, theirs: Player, fault: Fault, seconds: Optional[float], jobs: Optional[int]) -> Prober:
    """Returns a prober in batches if the fault is in dumps and both players know `play`, else a plain one."""
    if isinstance(fault, DumpsDiffer) and not fault.tolerance:
        try:
            try_words(ours, OURS, 1, seconds)
            try_words(theirs, THEIRS, 1, seconds)
            return BatchProber(ours, theirs, fault, seconds, jobs)
        except ToolError:
            pass
    return Prober(ours, theirs, fault, seconds, jobs)
