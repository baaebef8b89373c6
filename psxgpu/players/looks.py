"""How cells differ, in a few words: by what is drawn at all, and by the values of what both draw."""
from __future__ import annotations

import array
from typing import FrozenSet, Iterable, List, Sequence, Tuple

NOTHING, ALONE, EDGES, OTHERS = 'theirs draws nothing', 'theirs alone draws', 'cells at its edges', 'other cells'
BIT_15, STEP, COLOURS = 'bit 15', 'one step of a channel', 'other colours'
OUTSIDE, LOST = 'cells outside of its box', 'their player breaks down'
SHAPES, VALUES = (NOTHING, ALONE, EDGES, OTHERS), (BIT_15, STEP, COLOURS)
MOST = 2000             # cells that are looked at
CHANNELS = (0, 5, 10)
SIMILAR = (frozenset([EDGES, OTHERS]), frozenset([STEP, COLOURS]))     # the same with another size or colour


def similar(look: str) -> FrozenSet[str]:
    """Returns a look, and what it is with another size or colour."""
    return next((group for group in SIMILAR if look in group), frozenset([look]))


def may_be_one(one: str, other: str) -> bool:
    """Returns whether one fault may look in both ways: as shapes, or as values and parts of a shape, since a texel may
    be transparent. Bit 15 may be all that a player draws."""
    looks = {one, other}
    return (other in similar(one) or looks <= {*SHAPES} or looks <= {*VALUES, EDGES, OTHERS}
            or BIT_15 in looks and not looks.isdisjoint((NOTHING, ALONE)))


def shape_of(before: array.array[int], ours: array.array[int], theirs: array.array[int], cells: Sequence[int],
             width: int) -> str:
    """Returns how `cells` differ, which one player alone has changed. Those at edges are at most half of a box's."""
    if theirs == before:
        return NOTHING
    if ours == before:
        return ALONE
    columns, rows = [k % width for k in cells], (cells[-1] // width - cells[0] // width + 1)
    return EDGES if len(cells) <= max(columns) - min(columns) + 1 + rows else OTHERS


def value_of(mine: int, other: int) -> str:
    """Returns how two values differ."""
    steps = max(abs((mine >> shift & 31) - (other >> shift & 31)) for shift in CHANNELS)
    return BIT_15 if not steps else STEP if steps == 1 else COLOURS


def farthest(pairs: Iterable[Tuple[int, int]]) -> Sequence[str]:
    """Returns how the values differ that are the farthest from each other; nothing if there are none."""
    found = -1
    for pair in pairs:
        found = max(found, VALUES.index(value_of(*pair)))
        if VALUES[found] == COLOURS:
            break
    return VALUES[found:found + 1] if found >= 0 else ()


def differing(ours: array.array[int], theirs: array.array[int], width: int) -> List[int]:
    """Returns the places of the first cells that differ."""
    out: List[int] = []
    for at in range(0, len(ours) if ours != theirs else 0, width):
        mine, other = ours[at:at + width], theirs[at:at + width]
        if mine != other:
            out += [at + k for k in range(len(mine)) if mine[k] != other[k]]
        if len(out) > MOST:
            break
    return out


def looks_of(before: array.array[int], ours: array.array[int], theirs: array.array[int], width: int) -> FrozenSet[str]:
    """Returns how the cells of two players differ in a box of `width` columns. `before`: what both had before. Of the
    values, the farthest."""
    places = differing(ours, theirs, width)
    shapes = [k for k in places if before[k] in (ours[k], theirs[k])]
    value = farthest({(ours[k], theirs[k]) for k in places if before[k] not in (ours[k], theirs[k])})
    return frozenset([*value, *([shape_of(before, ours, theirs, shapes, width)] if shapes else [])])
