"""What an experiment needs in order to differ: tested by fresh experiments around it, on both sides of each fact.

A feature is needed if hardly any of those that differ still does without it. A condition is needed if those that lack
it differ far less often than those that have it."""
from __future__ import annotations

import itertools
from collections import Counter
from typing import Callable, Dict, FrozenSet, Iterable, Iterator, List, NamedTuple, Optional, Sequence

from psxgpu.fuzz.conditions import EARLIER, INCIDENTAL, NO_CONDITIONS, closed, drawing, facts_of
from psxgpu.fuzz.making import MOST_CELLS, Maker
from psxgpu.players.bench import Bench, Experiment, cells_of
from psxgpu.players.looks import similar
from psxgpu.reduce.features import FEATURES, active, name_of
from psxgpu.reduce.plainer import segments, triangles
from psxgpu.reduce.units import Unit

FRESH, PAIRS = 96, 10           # experiments around another one; those that are tried without a feature
LEAST, SIDE, TRIES = 8, 16, 600     # experiments that lack a condition, and how many are made to get them
STILL, APART = 0.34, 0.34       # shares of those that differ without a feature, and without a condition
CHANCE, FAR_APART = 0.7, 0.1    # how much a condition counts that may be there by chance, and the share for it
Facts = FrozenSet[str]


class Seen(NamedTuple):
    """Facts, how many experiments have just these, and how many of them differ."""
    facts: Facts
    number: int
    differ: int


def told(fact: str, seen: Sequence[Seen]) -> float:
    """Returns how much a fact tells: how many more of those without it would differ if it did not matter; 0 if too few
    lack it, or if too many of these differ. What may be there by chance counts less."""
    totals = {True: [0, 0], False: [0, 0]}
    for one in seen:
        total = totals[fact in one.facts]
        total[0] += one.number
        total[1] += one.differ
    (have, some), (lack, others) = totals[True], totals[False]
    if lack < LEAST or not some:
        return 0.0
    expected, is_incidental = lack * some / have, fact.startswith(INCIDENTAL)
    if others > (FAR_APART if is_incidental else APART) * expected:
        return 0.0
    return (expected - others) * (CHANCE if is_incidental else 1)


def most_telling(seen: Sequence[Seen], facts: Iterable[str]) -> Optional[str]:
    """Returns the fact that tells most, or None."""
    values = {fact: told(fact, seen) for fact in facts}
    best = max(sorted(values), key=lambda fact: (values[fact], fact.endswith('overwritten')), default=None)
    return best if best and values[best] else None


PARTS: Dict[str, Callable[[Unit], Iterator[Unit]]] = {'quad': triangles, 'polyline': segments}


def without(fact: str, one: Experiment) -> Experiment:
    """Returns an experiment without a feature, or without its earlier packets. A quad becomes both triangles, and a
    polyline all segments: one of them alone may agree by chance."""
    if fact == EARLIER:
        return (*one[:len(one) - len(drawing(one))], one[-1])
    if fact in PARTS and FEATURES[fact](one[-1]) != one[-1]:
        return (*one[:-1], *(tuple(part.words) for part in PARTS[fact](Unit(name_of(one[-1]), one[-1]))))
    return tuple(map(FEATURES[fact], one))


class Nearby:
    """Fresh experiments around one that differs with a look, and what they showed."""

    def __init__(self, bench: Bench, maker: Maker, middle: Experiment, look: str) -> None:
        self.bench, self.maker, self.middle, self.looks = bench, maker, middle, similar(look)
        self.name, self.facts = name_of(middle[-1]), facts_of(middle)
        self.differs: Dict[Experiment, bool] = {}

    def play(self, experiments: Sequence[Experiment]) -> List[bool]:
        """Plays experiments. Returns whether each differs as the middle one does."""
        new = [one for one in dict.fromkeys(experiments) if one not in self.differs]
        for one, verdict in zip(new, self.bench.judge(new)):
            self.differs[one] = not self.looks.isdisjoint(verdict.looks)
        return [self.differs[one] for one in experiments]

    def changed(self) -> Iterator[Experiment]:
        """Yields TRIES times the middle one with one to three changes."""
        for _ in range(TRIES):
            one = self.middle
            for _ in range(self.maker.random.choice((1, 1, 2, 3))):
                one = self.maker.changed(one)
            if name_of(one[-1]) == self.name:
                yield one

    def features(self) -> Facts:
        """Returns the features without which hardly any of the plainest that differ still does."""
        out, names = set(), [*active(self.middle), *([EARLIER] if EARLIER in self.facts else [])]
        plain = sorted((one for one, differs in self.differs.items() if differs), key=lambda one: len(facts_of(one)))
        for fact in names:
            pairs = [one for one in plain if without(fact, one) != one][:PAIRS]
            shown = self.play([without(fact, one) for one in pairs])
            if sum(shown) <= STILL * len(shown):
                out.add(fact)
        return frozenset(out)

    def aim(self, facts: Facts, chosen: Facts) -> None:
        """Plays fresh experiments that have the chosen facts and lack each of some others, as far as changes make
        them."""
        lacking = Counter(fact for one in self.seen(chosen) for fact in facts - one.facts for _ in range(one.number))
        found: List[Experiment] = []
        for one in self.changed():
            has = facts_of(one)
            if (chosen <= has and any(lacking[fact] < SIDE for fact in facts - has)
                    and cells_of(one) <= MOST_CELLS):
                lacking.update(facts - has)
                found.append(one)
            if all(lacking[fact] >= SIDE for fact in facts):
                break
        self.play(found)

    def seen(self, chosen: Facts) -> List[Seen]:
        """Returns what was seen of experiments with all of some facts, by facts."""
        counts: Dict[Facts, List[int]] = {}
        for one, differs in self.differs.items():
            total = counts.setdefault(facts_of(one), [0, 0])
            total[0] += 1
            total[1] += differs
        return [Seen(facts, *total) for facts, total in counts.items() if chosen <= facts]

    def rule(self) -> Facts:
        """Returns the facts that it needs: features, then the condition that tells most, then what tells more among
        those that have it."""
        small = (one for one in self.changed() if cells_of(one) <= MOST_CELLS)
        self.play([self.middle, *itertools.islice(small, FRESH)])
        chosen, conditions = self.features(), self.facts - NO_CONDITIONS
        while True:
            self.aim(conditions - chosen, chosen)
            best = most_telling(self.seen(chosen), conditions - chosen)
            if best is None:
                return closed(chosen)
            chosen |= {best}
