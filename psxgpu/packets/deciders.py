"""Who decides a difference: psx-spx or a rule of this project's own, and the section of docs/MACHINE.md that has it. By
the settings and conditions that a difference needs, and not by the class of its packet alone."""
from __future__ import annotations

from typing import Callable, FrozenSet, Iterable, List, NamedTuple, Tuple

from psxgpu.packets.grammar import COPY, FILL, LINE, LOAD, POLYGON, RECTANGLE, STORE

SPX, OWN = 'psx-spx', 'own rule'
TRANSFERS = (COPY, LOAD, STORE)


class Decision(NamedTuple):
    """Who decides, the section of docs/MACHINE.md, and the rule in a few words."""
    who: str
    section: str
    rule: str

    def __str__(self) -> str:
        return '%s (MACHINE.md, %s: %s)' % self


class Case(NamedTuple):
    """What a difference is: the packet's name, and the facts that it needs."""
    name: str
    facts: FrozenSet[str]

    def has(self, *facts: str) -> bool:
        """Whether it needs one of these facts."""
        return not self.facts.isdisjoint(facts)


# The first line that fits counts.
RULES: List[Tuple[Callable[[Case], bool], str, str, str]] = [
    (lambda it: it.has('unused-bits'), OWN, 'GP0 words and packets', 'bits of an opcode without a meaning'),
    (lambda it: it.has('an earlier packet', 'its texels are overwritten', 'its palette is overwritten'), OWN,
     'Textures', 'there is no cache'),
    (lambda it: it.has('a sum beyond eleven bits'), OWN, 'Where a primitive draws', 'sums with the offset do not wrap'),
    (lambda it: it.has('wider than 1023', 'higher than 511') and it.name in (POLYGON, LINE), SPX,
     'Where a primitive draws', 'the size rule'),
    (lambda it: it.has('tested-mask', 'forced-mask'), SPX, 'Video memory', 'the mask setting'),
    (lambda it: it.name == FILL, SPX, 'Fills', 'corner and size are rounded, cut, and wrap'),
    (lambda it: it.name == COPY and it.has('it overlaps itself', 'it overlaps itself to the right'), OWN,
     'Copies, loads and stores', 'one cell after another'),
    (lambda it: it.name in TRANSFERS, SPX, 'Copies, loads and stores', 'how corners and sizes are cut, and wraps'),
    (lambda it: it.has('an area corner with Y above 511'), SPX, 'Where a primitive draws', 'nine bits of Y'),
    (lambda it: it.has('area-start', 'area-end', 'an empty area', 'cut on the left', 'cut at the top',
                       'cut on the right', 'cut at the bottom'), SPX, 'Where a primitive draws',
     'both corners of the area are inside'),
    (lambda it: it.has('offset', 'a negative offset X', 'a negative offset Y', 'an offset Y'), SPX,
     'Where a primitive draws', 'the offset is added'),
    (lambda it: it.has('window', 'a window mask with a hole', 'a window offset outside of its mask',
                       'a window mask X from 16', 'a window mask Y from 16'), SPX, 'Textures', 'the window'),
    (lambda it: it.has('depth 3'), OWN, 'Textures', 'depth 3 is 15 bits'),
    (lambda it: it.has('a page over the right edge', 'a palette over the right edge'), OWN, 'Textures',
     'X wraps at the right edge'),
    (lambda it: it.has('dither'), SPX, 'Pixels', 'the dither table'),
    (lambda it: it.has('semi-transparency') or any(fact.startswith('blending') for fact in it.facts), OWN, 'Pixels',
     'the integer forms of blending'),
    (lambda it: it.name == RECTANGLE and it.has('U above 255', 'U below 0', 'V above 255', 'V below 0'), OWN,
     'Rectangles', 'U and V are modulo 256'),
    (lambda it: it.name == RECTANGLE and it.has('x-flip') and it.has('an even U'), OWN, 'Rectangles',
     'a flipped U starts at U itself'),
    (lambda it: it.name == RECTANGLE and it.has('x-flip', 'y-flip'), SPX, 'Rectangles', 'the flips'),
    (lambda it: it.name == POLYGON and it.has('several colours', 'shades', 'a scaled texture'), OWN, 'Polygons',
     'colours and texture coordinates are exact, rounded down'),
    (lambda it: it.name == LINE and it.has('several colours', 'shades'), OWN, 'Lines', 'colours to the nearest'),
    (lambda it: it.has('factor'), SPX, 'Pixels', 'a texel times a factor'),
    (lambda it: it.has('texture', '4-bit texels', '8-bit texels', '15-bit texels', 'a palette from row 256'), SPX,
     'Textures', 'which texel is drawn'),
    (lambda it: it.name == POLYGON, OWN, 'Polygons', 'which cells: the top left rule'),
    (lambda it: it.name == LINE, OWN, 'Lines', 'which points: to the nearest, ties to the greater'),
    (lambda it: it.name == RECTANGLE, SPX, 'Rectangles', 'corner and size'),
    (lambda it: it.name == 'status', OWN, 'The status word', 'what each bit says, and when'),
    (lambda it: it.name == 'reads' and it.has('no question before it', 'a load and no question before it',
                                              'an unfinished load', 'a read after the words of a store'), OWN,
     'Copies, loads and stores', 'a read without a store returns the latch, which is 0 at first'),
    (lambda it: it.name == 'reads', SPX, 'Registers', 'what a read returns')]
ANY = Decision(OWN, 'GP0 words and packets', 'what has no name does nothing')


def decision(name: str, facts: Iterable[str] = ()) -> Decision:
    """Returns who decides a difference of a packet that needs these facts."""
    case = Case(name, frozenset(facts))
    return next((Decision(*rest) for holds, *rest in RULES if holds(case)), ANY)
