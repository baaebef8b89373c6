"""The hunt: batches of experiments, what is known already, and the reduction of what is not."""
from __future__ import annotations

import contextlib
import os
from collections import Counter, defaultdict
from random import Random
from typing import Any, Dict, FrozenSet, Iterator, List, NamedTuple, Optional, Sequence, Tuple

from psxgpu.fuzz.conditions import drawing, facts_of, label
from psxgpu.fuzz.kinds import KEPT, MOST_WORDS, Kind, Store, kind_of
from psxgpu.fuzz.making import MOST_CELLS, Maker, packed
from psxgpu.fuzz.nearby import Nearby
from psxgpu.fuzz.reducing import Found, reduce_kind
from psxgpu.fuzz.rules import Samples
from psxgpu.output import Content
from psxgpu.packets.generated import background
from psxgpu.players.bench import Bench, Experiment, cells_of, how_lost
from psxgpu.players.looks import LOST, OUTSIDE
from psxgpu.reduce.features import name_of
from psxgpu.reduce.probing import processor_time

BATCH, TRIES, SPARED = 48, 8, 0.05      # experiments in a run; tries to make an unknown one; share of known ones
STRAY, LOOKED_INTO = 0.2, 2             # batches in which dumps are compared; new differences of one batch
HIDDEN = 0.25                           # batches in which a difference that seems known is looked into
LARGE = 0.02                            # share of the experiments that may change more than MOST_CELLS
MOST_TRIED = 3                          # reductions of what cannot be shown alone
SURE = 12                               # how often a kind is seen until it is seldom made again
FIRST = 10.0                            # seconds of processor time that each work may take before shares count
REDUCING, SHARE = 'reducing', 0.5       # reductions, and their share of the time
Facts = FrozenSet[str]
Differing = Tuple[Experiment, FrozenSet[str]]       # and how the players differ


class New(NamedTuple):
    """A difference that no kind explains: the experiment, its facts, and how the players differ."""
    experiment: Experiment
    facts: Facts
    look: str


def alone(one: Experiment) -> List[Experiment]:
    """Returns each packet of an experiment of several that draw, with the settings."""
    drawn = drawing(one)
    return [(*one[:len(one) - len(drawn)], packet) for packet in drawn] if len(drawn) > 1 else []


class Hunt:
    """One worker: two players on a ground of random cells, what it has seen, and the folder of kinds."""

    def __init__(self, bench: Bench, store: Store, seed: int) -> None:
        self.bench, self.store, self.seed = bench, store, seed
        self.random = Random('fuzz %d' % seed)
        self.maker, self.samples = Maker(self.random), Samples()
        self.counts: Counter[str] = Counter()
        self.seen: Counter[str] = Counter()             # by kind
        self.tried: Counter[Any] = Counter()
        self.spent: Dict[str, float] = defaultdict(float)       # seconds, by the work
        self.begin = processor_time()

    @property
    def time(self) -> float:
        """Seconds of processor time so far."""
        return round(processor_time() - self.begin, 1)

    @contextlib.contextmanager
    def spending(self, work: str) -> Iterator[None]:
        """Counts the processor time of a work."""
        begin = processor_time()
        try:
            yield
        finally:
            self.spent[work] += processor_time() - begin

    def may_spend(self, work: str, share: float) -> bool:
        """Returns whether a work has taken less than its share of the time. What waits for time comes again later."""
        return self.spent[work] <= max(FIRST, share * self.time)

    def explaining(self, name: str, facts: Facts, look: str) -> Optional[str]:
        """Returns the key of the kind that explains a difference."""
        return next((key for key, kind in self.store.kinds.items() if kind.explains(name, facts, look)), None)

    def is_known(self, experiment: Experiment) -> bool:
        """Returns whether an experiment has all that a frequent kind needs, in whatever way it may differ."""
        name, facts = name_of(experiment[-1]), facts_of(experiment)
        return any(kind.name == name and not kind.is_vague and kind.rule <= facts and self.seen[key] >= SURE
                   for key, kind in self.store.kinds.items())

    def batch(self) -> Iterator[Experiment]:
        """Yields experiments, few of which are known."""
        for _ in range(BATCH):
            for _ in range(TRIES):
                one = self.maker.one()
                while cells_of(one) > MOST_CELLS and self.random.random() > LARGE:
                    one = self.maker.one()
                if self.random.random() < SPARED or not self.is_known(one):
                    break
            yield one

    def step(self) -> None:
        """One batch."""
        self.store.refresh()
        experiments = list(self.batch())
        verdicts = self.bench.judge(experiments)
        found = [(one, verdict.looks) for one, verdict in zip(experiments, verdicts) if verdict.differs]
        self.counts.update(batches=1, captures=len(experiments), differ=len(found))
        if self.random.random() < STRAY:
            found += self.stray(experiments)
        for one, verdict in zip(experiments, verdicts):
            if not verdict.differs:
                self.samples.add(name_of(one[-1]), facts_of(one), ())
                self.maker.keep(one)
        news, known = self.parted([new for one, looks in self.confirmed(found) for new in self.taken(one, looks)])
        for new in self.chosen(news) if self.may_spend(REDUCING, SHARE) else ():
            self.look_into(new)
        if known and self.random.random() < HIDDEN:
            self.look_into(self.random.choice(known))

    def stray(self, experiments: Sequence[Experiment]) -> List[Differing]:
        """Returns the experiment of the last batch that changed cells outside of its boxes, if there is one."""
        at = self.bench.stray()
        if at is None:
            return []
        for part in alone(experiments[at]):     # the packet that does it
            self.bench.judge([part])
            if self.bench.stray() is not None:
                return [(part, frozenset([OUTSIDE]))]
        return [(experiments[at], frozenset([OUTSIDE]))]

    def confirmed(self, found: Sequence[Differing]) -> Iterator[Differing]:
        """Yields those that differ again in another order: what an earlier one drew elsewhere is not their fault."""
        again = self.bench.judge([one for one, _ in reversed(found)])
        for (one, looks), verdict in zip(found, reversed(again)):
            if not verdict.differs and OUTSIDE not in looks:
                self.counts['unconfirmed'] += 1
                continue
            yield from self.parts(one, verdict.looks or looks)

    def parts(self, one: Experiment, looks: FrozenSet[str]) -> Iterator[Differing]:
        """Yields an experiment that differs; of several packets that draw, the first one that differs alone."""
        parts = alone(one)
        found = [(part, verdict.looks) for part, verdict in zip(parts, self.bench.judge(parts)) if verdict.differs]
        yield found[0] if found else (one, looks)

    def taken(self, one: Experiment, looks: FrozenSet[str]) -> List[New]:
        """Adds an experiment that differs to what was seen. Returns its differences."""
        name, facts = name_of(one[-1]), facts_of(one)
        self.samples.add(name, facts, looks)
        return [New(one, facts, look) for look in sorted(looks)]

    def parted(self, found: Sequence[New]) -> Tuple[List[New], List[New]]:
        """Counts differences that a kind explains. Returns those that none explains, and those that a vague one does:
        another cause may be hidden in it."""
        news, known = [], []    # type: List[New], List[New]
        for new in found:
            key = self.explaining(name_of(new.experiment[-1]), new.facts, new.look)
            if not key:
                news.append(new)
                continue
            self.seen[key] += 1
            if self.store.kinds[key].is_vague:
                known.append(new)
        return news, known

    def chosen(self, news: List[New]) -> List[New]:
        """Returns a few new differences, the simplest of each name and look."""
        simple = sorted(news, key=lambda new: (len(new.facts), len(new.experiment[-1])))
        first: Dict[Tuple[str, str], New] = {}
        for new in simple:
            first.setdefault((label(new.experiment[-1]), new.look), new)
        self.random.shuffle(simple)
        return [*first.values()][:LOOKED_INTO]

    def look_into(self, new: New) -> None:
        """Finds what a new difference needs, by experiments around it. If no kind needs that, reduces it."""
        needs = frozenset() if new.look == OUTSIDE else self.needs(new.experiment, new.look)
        name = name_of(new.experiment[-1])
        if not self.has(name, needs, new.look) and self.tried[name, new.look, needs] < MOST_TRIED:
            self.tried[name, new.look, needs] += 1
            with self.spending(REDUCING):
                self.add(new, needs)

    def needs(self, one: Experiment, look: str) -> Facts:
        """Returns the facts that an experiment needs in order to differ with a look."""
        near = Nearby(self.bench, self.maker, one, look)
        rule = near.rule()
        self.counts['around'] += len(near.differs)
        return rule

    def has(self, name: str, rule: Facts, look: str) -> bool:
        """Returns whether a kind needs no more than a rule. A vague one is another one than those that differ far more
        often."""
        return any(kind.explains(name, rule, look)
                   and not (kind.is_vague and self.samples.is_apart(name, look, kind.rule, rule))
                   for kind in self.store.kinds.values())

    def add(self, new: New, needs: Facts) -> None:
        """Reduces a new difference and keeps it as a kind."""
        begin = self.time
        self.counts['reductions'] += 1
        if new.look in (OUTSIDE, LOST):
            kind = kind_of(new.experiment, new.look, needs)
            kind.lines = [how_lost(self.bench, new.experiment)] if new.look == LOST else []
            files = [Content('.capture', self.bench.capture([new.experiment], [([], [])]))]
        else:
            found = reduce_kind(self.bench, new.experiment, new.look, needs)
            is_last = self.tried[name_of(new.experiment[-1]), new.look, needs] >= MOST_TRIED
            missing = self.missing(found, is_last)
            self.counts.update([missing] if missing else [])
            if not found or missing:
                return
            kind, files = found[0], found[1]()
        kind.found = dict(seconds=self.time, captures=self.counts['captures'], reduced=round(self.time - begin, 1))
        key = '%s-%d-%d' % (kind.label, self.seed, len(self.store.kinds) + 1)
        path = self.store.path('kinds/' + key)
        self.store.put(key, kind, [file._replace(path=path + os.path.splitext('x' + file.path)[1]) for file in files])
        self.seen[key] += 1

    def missing(self, found: Optional[Found], is_last: bool) -> str:
        """Returns why what was reduced is no new kind; nothing if it is one, whose facts are then found."""
        if found is None:
            return 'not shown alone'
        kind, _, small = found
        if kind.words > MOST_WORDS and not is_last:
            return 'large'          # a simpler one may come
        return '' if self.learn(kind, packed(small)) else 'again'

    def learn(self, kind: Kind, small: Experiment) -> bool:
        """Finds what the smallest capture of a kind needs, on the ground. Returns whether no other kind needs that."""
        looks = self.bench.judge([small])[0].looks
        if looks:       # else it differs on other cells alone
            kind.look = kind.look if kind.look in looks else min(looks)
            kind.needs = sorted(self.needs(small, kind.look))
        kind.seed = sorted(facts_of(small))
        return not self.has(kind.name, kind.rule, kind.look)

    def save(self, is_last: bool = False) -> None:
        """Keeps the counts, and now and then what was seen."""
        counts = dict(counts=dict(self.counts), seen=dict(self.seen), seconds=self.time)
        self.store.keep(self.seed, counts, self.samples if is_last or self.counts['batches'] % KEPT == 0 else None)


def ground_of(seed: int) -> List[int]:
    """Returns the words for the ground of a seed."""
    return background(Random('ground %d' % seed))



