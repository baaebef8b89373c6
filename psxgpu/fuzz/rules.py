"""What was seen: how often experiments with some facts differ, of all that have them."""
from __future__ import annotations

from collections import Counter, defaultdict
from typing import Counter as Counts
from typing import Dict, FrozenSet, Iterable, List, Tuple

from psxgpu.players.looks import similar

APART, ENOUGH = 0.34, 8         # how much less often the others differ, and how many are needed to say so
Facts = FrozenSet[str]
ALL = ''                        # in the place of a look: every experiment


class Samples:
    """The facts of experiments as bits, by the packet's name and how they differ."""

    def __init__(self) -> None:
        self.bits: Dict[str, int] = {}
        self.seen: Dict[Tuple[str, str], Counts[int]] = defaultdict(Counter)

    def mask(self, facts: Iterable[str]) -> int:
        """Returns facts as bits."""
        out = 0
        for fact in facts:
            out |= 1 << self.bits.setdefault(fact, len(self.bits))
        return out

    def add(self, name: str, facts: Facts, looks: Iterable[str]) -> None:
        """Adds an experiment; `looks` is empty if it agrees."""
        mask = self.mask(facts)
        for look in (ALL, *looks):
            self.seen[name, look][mask] += 1

    def as_list(self) -> List[object]:
        """Returns what was seen, for a file: name, look, facts, how often."""
        return [[name, look, [fact for fact, at in self.bits.items() if mask >> at & 1], count]
                for (name, look), counts in self.seen.items() for mask, count in counts.items()]

    def take(self, rows: Iterable[Tuple[str, str, List[str], int]]) -> None:
        """Adds what `as_list` has returned."""
        for name, look, facts, count in rows:
            self.seen[name, look][self.mask(facts)] += count

    def count(self, name: str, look: str, rule: Facts) -> int:
        """Returns how many experiments with a look have all facts of a rule."""
        mask = self.mask(rule)
        return sum(count for one, count in self.seen[name, look].items() if one & mask == mask)

    def differing(self, name: str, look: str, rule: Facts) -> int:
        """Returns how many experiments with all facts of a rule differ in such a way."""
        return sum(self.count(name, one, rule) for one in similar(look))

    def is_apart(self, name: str, look: str, general: Facts, special: Facts) -> bool:
        """Returns whether experiments with all facts of a special rule differ far more often than the others of the
        general rule, which has some of these facts. False if too few were seen."""
        inside = self.count(name, ALL, special)
        outside = self.count(name, ALL, general) - inside
        if min(inside, outside) < ENOUGH:
            return False
        some, others = self.differing(name, look, special), self.differing(name, look, general)
        return (others - some) * inside <= APART * some * outside
