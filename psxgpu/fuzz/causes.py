"""Puts kinds together that one small change of a player would explain."""
from __future__ import annotations

import itertools
from dataclasses import replace
from typing import Dict, FrozenSet, List, NamedTuple, Optional

from psxgpu.fuzz.conditions import BLENDING, DEPTHS, DRAWN, INCIDENTAL, NO_CONDITIONS, ONE_MORE, VAGUE
from psxgpu.fuzz.kinds import CORNER, READS, STATUS, UNUSED, Kind, sentence
from psxgpu.fuzz.rules import Samples
from psxgpu.packets.grammar import COPY, FILL, LOAD
from psxgpu.players.looks import ALONE, COLOURS, LOST, NOTHING, OUTSIDE, SHAPES, may_be_one, similar

GENERAL = NO_CONDITIONS.union(DEPTHS, BLENDING)     # two causes may need the same one of these
SEQUENCES, UNUSED_BITS = {READS, STATUS}, 'unused-bits'
# What shows a difference in a sequence says nothing about its cause.
SHOWING = frozenset(['a store', 'nop', *DRAWN, FILL, COPY, LOAD])
UNFINISHED = [['an unfinished load'], ['an unfinished packet']]
PAIRS = [('x-flip', 'y-flip'), ('U below 0', 'V below 0'), ('U above 255', 'V above 255'),
         ('cut on the left', 'cut at the top'), ('cut on the right', 'cut at the bottom'),
         ('wider than 1023', 'higher than 511'), ('a negative offset X', 'a negative offset Y'),
         ('a window mask X from 16', 'a window mask Y from 16')]
PAIRS += [(box + ' over the right edge', box + ' over the bottom') for box in ('its box', 'its target', 'its source')]
MIRRORED = {a: b for one, other in PAIRS for a, b in ((one, other), (other, one))}
SAYS_NOTHING = frozenset(['texture', 'shades', 'quad', 'polyline'])
Facts = FrozenSet[str]


class Cause(NamedTuple):
    """A kind that stands for others, with the facts that all need, and the keys and labels of all."""
    key: str
    kind: Kind
    keys: List[str]
    labels: List[str]

    @property
    def sentence(self) -> str:
        """What differs, and when, in one sentence."""
        return sentence(', '.join(self.labels), self.kind.needs, self.kind.look)


def shared_rule(one: Kind, other: Kind) -> Optional[Facts]:
    """Returns what one cause of kinds of two packets needs: the same facts, about the same rule of docs/MACHINE.md.
    Those of whole classes count only if both look alike; a texture or shades alone say nothing."""
    both = one.rule & other.rule
    if {one.name, other.name} == {STATUS, READS}:       # the same control word is seen in both
        return both if both in (one.rule, other.rule) and any(fact.startswith('GP1') for fact in both) else None
    if {one.look, other.look} == {NOTHING, ALONE}:      # the opposite
        return None
    is_told = bool(one.rule - VAGUE or one.rule - SAYS_NOTHING and other.look in similar(one.look))
    return one.rule if one.rule == other.rule and is_told and one.decision == other.decision else None


def outside_rule(one: Kind, other: Kind) -> Optional[Facts]:
    """Returns the same for kinds of which at least one is about cells outside of the box: another kind is its cause if
    it was found where that one's condition holds."""
    if one.look == other.look:
        return one.rule & other.rule
    known, stray = (one, other) if other.look == OUTSIDE else (other, one)
    return known.rule if known.rule and known.rule <= frozenset(stray.seed) else None


def sequence_rule(one: Kind, other: Kind) -> Optional[Facts]:
    """Returns the same for a packet and a sequence that has such a packet: their player breaks down at both, or the
    packet needs bits that mean nothing, or a corner of the area with ten bits of Y, which the sequence has, too."""
    packet, sequence = (one, other) if other.name in SEQUENCES else (other, one)
    is_lost = {packet.look, sequence.look} == {LOST} and packet.name in sequence.seed
    is_unused = UNUSED_BITS in packet.rule and packet.name + UNUSED in sequence.rule
    return packet.rule if is_lost or is_unused or CORNER in packet.rule & sequence.rule else None


def mirrored_rule(one: Kind, other: Kind) -> Optional[Facts]:
    """Returns the same for two kinds, one of which needs what the other needs in X and Y exchanged, unless they look
    opposite."""
    plain = one.rule - ONE_MORE
    both = frozenset(MIRRORED.get(fact, fact) for fact in plain), other.rule - ONE_MORE
    is_told = both[0] != plain and not min(both, key=len) <= VAGUE and {one.look, other.look} != {NOTHING, ALONE}
    return one.rule if is_told and (both[0] <= both[1] or both[1] <= both[0]) else None


def is_one_sequence(one: Kind, other: Kind) -> bool:
    """Returns whether two kinds of sequences may be one: both or none are about ten bits of Y, and what both need is
    more than what shows it. What draws shows cells, and sets bits of the status itself."""
    showing = SHOWING.difference(DRAWN) if one.name == STATUS else SHOWING
    return (CORNER in one.rule) == (CORNER in other.rule) and not one.rule & other.rule <= showing


def unfinished_rule(one: Kind, other: Kind) -> Optional[Facts]:
    """Returns the same for two kinds of the same bits of the status, in an unfinished packet and in an unfinished
    load."""
    is_told = one.name == STATUS and one.look == other.look
    return one.rule if is_told and sorted(sorted(kind.rule - {LOAD}) for kind in (one, other)) == UNFINISHED else None


def common_rule(one: Kind, other: Kind, samples: Samples) -> Optional[Facts]:
    """Returns the facts that one cause of two kinds needs; None if they are two causes.

    Of one packet, they are one cause if one needs all that the other needs, or if they look alike and share a
    condition, about the same rule of docs/MACHINE.md. Of two packets, if both need the same facts about the same rule.
    What else is one cause, experiments have to show (`psxgpu.fuzz.asking`)."""
    both, plain = one.rule & other.rule, [kind.rule - ONE_MORE for kind in (one, other)]
    names = {one.name, other.name}
    if len(names) > 1 and len(names & SEQUENCES) == 1:
        return sequence_rule(one, other)
    if len(names) > 1:
        return shared_rule(one, other)
    if (one.look == LOST) != (other.look == LOST):
        return None
    if OUTSIDE in (one.look, other.look):
        return outside_rule(one, other)
    if one.name in SEQUENCES and not is_one_sequence(one, other):
        return unfinished_rule(one, other)
    is_alike = other.look in similar(one.look)
    if plain[0] & plain[1] in plain:
        return both if is_case(one, other, samples) else None
    is_told = one.name in SEQUENCES or one.decision == other.decision and any(
        fact not in GENERAL and not fact.startswith(INCIDENTAL) for fact in both)
    return both if is_alike and is_told else mirrored_rule(one, other)


def is_case(one: Kind, other: Kind, samples: Samples) -> bool:
    """Returns whether of two kinds, one of which needs all that the other needs, one is a case of the other. It is not
    if no fault looks as both do, or if other cells are drawn far more often with what else it needs. If the other is
    vague, they have to look alike, or both be about which cells are drawn; and what has the vague facts alone has to
    differ nearly as often."""
    general, special = sorted((one, other), key=lambda kind: len(kind.rule - ONE_MORE))
    if not general.rule - ONE_MORE <= VAGUE:
        is_apart = {special.look, general.look} <= {*SHAPES} and special.look not in similar(general.look) and (
            samples.is_apart(special.name, special.look, general.rule, special.rule))
        return (special.name in SEQUENCES or may_be_one(special.look, general.look)) and not is_apart
    is_alike = (special.look in similar(general.look) or special.is_vague and {one.look, other.look} <= {*SHAPES}
                or 'texture' in general.rule and general.look == COLOURS)       # a texel may be transparent
    return is_alike and not samples.is_apart(special.name, special.look, general.rule, special.rule)


def shown_rule(one: Cause, other: Cause, kinds: Dict[str, Kind]) -> Optional[Facts]:
    """Returns the facts of the more general one of two causes, if experiments have shown that the kind of one is a case
    of a kind of the other. A case of two causes does not join them."""
    for special, general in ((one, other), (other, one)):
        if not set(kinds[special.key].same).isdisjoint(general.keys):
            return (special if general.kind.name == READS else general).kind.rule
    return None


def explained(kinds: Dict[str, Kind]) -> Dict[str, str]:
    """Returns, for vague kinds, another kind that explains their smallest capture, the one that needs most."""
    out: Dict[str, str] = {}
    for key, kind in kinds.items():
        seed = frozenset(kind.seed)
        found = [other for other, known in kinds.items() if kind.is_vague and not known.is_vague
                 and known.look in similar(kind.look) and known.explains(kind.name, seed, kind.look)]
        if found and kind.look not in (OUTSIDE, LOST):
            out[key] = max(found, key=lambda other: len(kinds[other].rule))
    return out


def causes(kinds: Dict[str, Kind], samples: Samples) -> List[Cause]:
    """Returns the causes of kinds, each with the kind of the fewest facts and words."""
    order, taken = sorted(kinds, key=lambda key: (len(kinds[key].rule) or 99, kinds[key].words, key)), explained(kinds)
    found = [Cause(key, kinds[key], [key, *(other for other in order if taken.get(other) == key)], [kinds[key].label])
             for key in order if key not in taken]
    at = 0
    while at < len(found):
        joined = joined_with(found, at, kinds, samples)
        at = 0 if joined else at + 1
    return found


def joined_with(found: List[Cause], at: int, kinds: Dict[str, Kind], samples: Samples) -> bool:
    """Puts a later cause to the one at `at`, if both are one: by what experiments have shown, or by their facts.
    Returns whether it did."""
    cause = found[at]
    for other in found[at + 1:]:
        rule = shown_rule(cause, other, kinds)
        if rule is None:
            rule = told_rule(cause, other, kinds, samples)
        if rule is not None:
            is_turned = cause.kind.name == READS and other.kind.name not in SEQUENCES       # a packet says more
            main, more = (other, cause) if is_turned else (cause, other)
            found.remove(other)
            found[at] = Cause(main.key, replace(main.kind, needs=sorted(rule)), main.keys + more.keys,
                              [*dict.fromkeys(main.labels + more.labels)])
            return True
    return False


def told_rule(one: Cause, other: Cause, kinds: Dict[str, Kind], samples: Samples) -> Optional[Facts]:
    """Returns the facts that one cause of two needs, if a kind of one and a kind of the other are one by their facts.
    Both have to need what their cause needs, which has to say something: a case of two causes does not join them."""
    rule = common_rule(one.kind, other.kind, samples)
    if rule is not None:
        return rule
    if one.kind.rule <= SAYS_NOTHING or other.kind.rule <= SAYS_NOTHING:
        return None
    pairs = itertools.product(*([kinds[key] for key in cause.keys if kinds[key].rule == cause.kind.rule]
                                for cause in (one, other)))
    return one.kind.rule if any(common_rule(a, b, samples) is not None for a, b in pairs) else None
