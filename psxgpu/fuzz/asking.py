"""Asks the players which kinds have one cause: what one kind needs is taken away from the other one's capture.

A kind is a case of another one if its capture has all that this needs, and no longer differs without any part of it,
while what the kind itself needs is still there."""
from __future__ import annotations

import io
import os
from itertools import islice
from random import Random
from typing import Dict, Iterator, List, Optional

from psxgpu.fuzz.conditions import NO_CONDITIONS, ONE_MORE, SETTINGS, VAGUE, drawing, facts_of
from psxgpu.fuzz.kinds import KINDS, READS, STATUS, Facts, Kind, Store
from psxgpu.fuzz.making import MOST_CELLS, Maker, packed, packets_of
from psxgpu.fuzz.nearby import Nearby, without
from psxgpu.packets.split import KEPT
from psxgpu.players.bench import Bench, Experiment, boxes_of, cells_of
from psxgpu.players.looks import LOST, OUTSIDE, may_be_one
from psxgpu.players.probes import size
from psxgpu.players.trial_run import words_of
from psxgpu.reduce.features import name_of
from psxgpu.stream import GP0, Stream

ASKED, LEAST = 12, 6        # experiments on each side of a fact, and how few decide nothing
REGISTERS = KEPT[False]     # the bits of E1h to E6h
QUESTION = 'GP1(10h) 2 to 5'
ASKED_FOR = {'E2h': 0xE2, 'E5h': 0xE5}      # facts of sequences, and the registers: those of the area only cut
HARDLY, MOSTLY = 0.1, 0.5   # shares of those that differ without the fact, and with it


def capture_of(store: Store, key: str) -> Optional[Experiment]:
    """Returns the packets of a kind's capture; None if it has none that draws."""
    path = store.path(os.path.join(KINDS, key + '.capture'))
    if not os.path.exists(path):
        return None
    with open(path, 'rb') as file:
        words = [word for kind, _, part in Stream(io.BytesIO(file.read()), path) if kind == GP0 for word in part]
    packets = packed(list(packets_of(words)))
    return packets if len(packets) > len(SETTINGS) else None


class Asking:
    """The kinds of a folder, and two players."""

    def __init__(self, bench: Bench, store: Store) -> None:
        self.bench, self.store, self.maker = bench, store, Maker(Random('asking'))
        self.near: Dict[str, Nearby] = {}

    def nearby(self, key: str) -> Optional[Nearby]:
        """Returns the experiments around the capture of a kind, if it differs on the ground as the kind does."""
        if key not in self.near:
            kind, experiment = self.store.kinds[key], capture_of(self.store, key)
            if experiment is None:
                return None
            near = Nearby(self.bench, self.maker, experiment, kind.look)
            if not near.play([experiment])[0]:
                return None
            self.near[key] = near
        return self.near[key]

    def sides(self, near: Nearby, kept: Facts, fact: str) -> Iterator[List[Experiment]]:
        """Yields experiments with all the kept facts, then the same without one fact."""
        found = [one for one in near.changed() if kept <= facts_of(one)]
        having = [near.middle, *islice((one for one in found if cells_of(one) <= MOST_CELLS), ASKED - 1)]
        yield having
        if fact in NO_CONDITIONS:
            yield [without(fact, one) for one in having]
            return
        rest = kept - {fact}
        lacking = (one for one in near.changed() if rest <= facts_of(one) and fact not in facts_of(one)
                   and cells_of(one) <= MOST_CELLS)
        yield list(islice(lacking, ASKED))

    def needs(self, near: Nearby, kept: Facts, fact: str) -> Optional[bool]:
        """Returns whether what has all the kept facts, of which one is asked about, hardly differs without this one, or
        cannot be without it; None if that is not decided."""
        shares = []     # type: List[float]
        for side in self.sides(near, kept, fact):
            shown = near.play(side)
            if shares and not side:
                return shares[0] >= MOSTLY
            if len(shown) < LEAST:
                return None
            shares.append(sum(shown) / len(shown))
        some, others = shares
        if some < MOSTLY:
            return None
        return others <= HARDLY * some

    def register_bits(self, key: str) -> Dict[int, int]:
        """Returns the register that a kind of reads asks for, and the bits of it in which the last words differ."""
        kind, path = self.store.kinds[key], self.store.path(os.path.join(KINDS, key + '.capture'))
        opcodes = [opcode for name, opcode in ASKED_FOR.items() if name in kind.rule]
        if len(opcodes) != 1 or QUESTION not in kind.rule or not os.path.exists(path):
            return {}
        with open(path, 'rb') as file:
            data = file.read()
        mine, theirs = (words_of(player, data, self.bench.seconds) for player in (self.bench.ours, self.bench.theirs))
        return {opcodes[0]: (mine[-1] ^ theirs[-1]) & REGISTERS[opcodes[0] - 0xE1]} if mine and theirs else {}

    def is_of_register(self, key: str, other: str) -> bool:
        """Returns whether a kind is one with a kind of reads: their player has other bits of a register, and hardly
        anything differs without these bits."""
        near, rule = self.nearby(key), self.store.kinds[key].rule
        if near is None:
            return False
        for opcode, bits in self.register_bits(other).items():
            found = (one for one in near.changed() if rule <= facts_of(one) and cells_of(one) <= MOST_CELLS)
            having = [near.middle, *islice((one for one in found if near.play([one])[0]), LEAST)]
            lacking = [tuple((packet[0] & ~bits,) if packet[0] >> 24 == opcode else packet for packet in one)
                       for one in having]
            return (all(new != one for new, one in zip(lacking, having)) and not any(near.play(lacking))
                    and all(map(self.draws, lacking)))
        return False

    def draws(self, one: Experiment) -> bool:
        """Returns whether our player draws anything."""
        boxes = boxes_of(one)
        before = b''.join(self.bench.cells(box).tobytes() for box in boxes[0])
        words = self.bench.play(self.bench.ours, self.bench.capture([one], [boxes]), len(before) // 4)
        return words.tobytes() != before

    def is_drawn(self, key: str, other: str) -> bool:
        """Returns whether a kind of reads shows what a packet draws: this packet of its sequence, alone and in the
        whole area, is of the other kind."""
        general, packets = self.store.kinds[other], capture_of(self.store, key) or ()
        drawn = [packet for packet in drawing(packets) if name_of(packet) == general.name][-1:]
        one = (*packets[:len(SETTINGS)], *drawn)
        looks = self.bench.judge([one])[0].looks if drawn else ()
        return any(general.explains(general.name, facts_of(one), look) for look in looks)

    def is_case(self, key: str, other: str) -> bool:
        """Returns whether a kind is a case of another one, which has a condition."""
        kind, general, near = self.store.kinds[key], self.store.kinds[other], self.nearby(key)
        asked = general.rule - kind.rule
        if not may_be_one(kind.look, general.look):
            return False
        if near is None or not asked or not general.rule - NO_CONDITIONS or not general.rule <= near.facts:
            return False
        kept = kind.rule | general.rule
        return all(self.needs(near, kept, fact) for fact in sorted(asked))

    def matters(self, one: Experiment, fact: str) -> bool:
        """Returns whether a feature changes what our player draws."""
        pair = [one, without(fact, one)]
        boxes = [boxes_of(form) for form in pair]
        total = sum(size(box) for seen, _ in boxes for box in seen) // 2
        words = self.bench.play(self.bench.ours, self.bench.capture(pair, boxes), total)
        return boxes[0] != boxes[1] or words[:total // 2] != words[total // 2:]

    def is_shared(self, key: str, other: str) -> bool:
        """Returns whether a kind is one with a kind of another packet, which needs less, about the same rule: what else
        it needs is there by chance, or is what our own player needs for the shared facts to matter."""
        kind, general, near = self.store.kinds[key], self.store.kinds[other], self.nearby(key)
        if near is None or not general.rule < kind.rule or not general.rule - VAGUE:
            return False
        if kind.decision != general.decision:
            return False
        return all(self.is_needed_too(other, fact) or self.is_extra(near, kind, general, fact)
                   for fact in sorted(kind.rule - general.rule))

    def is_needed_too(self, key: str, fact: str) -> bool:
        """Returns whether a kind needs a fact that its rule does not have."""
        near = self.nearby(key)
        return (near is not None and fact in near.facts
                and bool(self.needs(near, self.store.kinds[key].rule | {fact}, fact)))

    def is_extra(self, near: Nearby, kind: Kind, general: Kind, fact: str) -> bool:
        """Returns whether a fact says nothing about the cause. A packet of one row or column may be drawn nowhere."""
        shared = general.rule & NO_CONDITIONS
        if fact in NO_CONDITIONS and shared:
            plain = without(fact, near.middle)
            if not any(self.matters(plain, one) for one in shared):
                return True
        return fact in ONE_MORE or self.needs(near, kind.rule, fact) is False

    def is_same(self, key: str, other: str) -> bool:
        """Returns whether experiments show that a kind is a case of another one."""
        names = [self.store.kinds[one].name for one in (key, other)]
        if names[0] == names[1]:
            return self.is_case(key, other)
        if READS in names and STATUS not in names:
            return self.is_of_register(key, other) if names[1] == READS else self.is_drawn(key, other)
        return self.is_shared(key, other)

    def ask(self) -> None:
        """Asks about all pairs of kinds, and keeps what was found in each kind."""
        kinds = self.store.kinds
        for key, kind in kinds.items():
            if kind.look in (OUTSIDE, LOST):
                continue
            same = [other for other in kinds if other != key and kinds[other].look not in (OUTSIDE, LOST)
                    and self.is_same(key, other)]
            if same != kind.same:
                kind.same = same
                self.store.put(key, kind)
