"""Who decides a difference that a tool shows: of a packet by its settings and numbers, of a class by what its packets
have in common."""
from __future__ import annotations

from random import Random
from typing import Dict, FrozenSet, Optional, Sequence

from psxgpu.fuzz.conditions import DRAWN, drawing, facts_of
from psxgpu.fuzz.making import packed, packets_of
from psxgpu.packets.deciders import Decision, decision
from psxgpu.packets.generated import CLASSES
from psxgpu.packets.grammar import COPY, FILL, LINE, LOAD, POLYGON, STORE
from psxgpu.reduce.features import name_of
from psxgpu.reduce.units import Unit

DECIDED = 'decided by: %s'
SEEDS = 12                  # random packets of a class
WORDS = {'shaded': 'shades', 'textured': 'texture', 'semi': 'semi-transparency'}
# What most packets of a recording have, and do not need in order to differ.
PLACES = frozenset(['area-start', 'area-end', 'offset', 'a negative offset X', 'a negative offset Y', 'an offset Y',
                    'cut on the left', 'cut at the top', 'cut on the right', 'cut at the bottom'])
NAMES = {'triangle': POLYGON, 'quad': POLYGON, 'polyline': LINE}


def of_units(units: Sequence[Unit], ignored: FrozenSet[str] = frozenset()) -> Optional[Decision]:
    """Returns who decides what the last packet of units draws; None if no packet draws. `ignored`: facts that do not
    count."""
    packets = [unit.words for unit in units if unit.is_packet]
    drawn = [packet for packet in drawing(packets) if name_of(packet) in (*DRAWN, FILL, COPY, LOAD, STORE)]
    if not drawn or packets[-1] is not drawn[-1]:
        return None
    if name_of(drawn[-1]) == STORE:
        return decision(STORE)
    return decision(name_of(drawn[-1]), facts_of(packed(packets)) - ignored)


def of_packet(words: Sequence[int], registers: Dict[int, int]) -> Optional[Decision]:
    """Returns who decides what a packet draws under registers; None if it draws nothing."""
    settings = [Unit('environment', (opcode << 24 | value,)) for opcode, value in registers.items()]
    return of_units([*settings, *(Unit(name_of(packet), packet) for packet in packets_of(words))], PLACES)


def of_class(kind: str) -> Decision:
    """Returns who decides in a class as `audit` names it: `triangle shaded textured`."""
    first, *rest = kind.split()
    facts = {WORDS[word] for word in rest if word in WORDS}
    name = NAMES.get(first, first)
    return decision(name, facts | ({'a scaled texture'} if name == POLYGON and 'textured' in rest else set()))


def of_random(name: str) -> Decision:
    """Returns who decides in a class of `agree`."""
    found = [packed(list(packets_of(CLASSES[name](Random(seed))))) for seed in range(SEEDS)]
    common = frozenset.intersection(*map(facts_of, found))
    return decision(name_of(found[0][-1]), common)
