"""The table of rule by packet: a row for each rule, a column for each kind of packet.

A cell has the tests that name it in their marks, or the reason why the rule does not apply. `REASONS` has a function
for each rule: it returns the reason for a kind of packet, or an empty text if there has to be a test.
"""
from __future__ import annotations

from typing import Callable, Dict, Iterable, List, Sequence, Tuple

from psxgpu.conformance.packets import FAMILIES, KINDS, LINES, POLYGONS, RECTANGLES, TRANSFERS, Kind
from psxgpu.conformance.suite import Test

Reason = Callable[[Kind], str]
Cells = Dict[Tuple[str, str], List[str]]        # rule and kind: the full names of tests
BITS = ('4 bits', '8 bits', '15 bits')
BLENDS = ('B/2 + F/2', 'B + F', 'B - F', 'B + F/4')


def moves(kind: Kind) -> str:
    """Copies, loads and stores have no colour."""
    return 'moves cells as they are' if kind.family == TRANSFERS and kind.shape != 'fill' else ''


def drawn(kind: Kind) -> str:
    """Transfers are not drawn."""
    return moves(kind) or ('is a fill, not a primitive' if kind.family == TRANSFERS else '')


def colored(kind: Kind) -> str:
    return moves(kind) or ('modulation and raw have it' if kind.is_textured else '')


def cleared(kind: Kind) -> str:
    return moves(kind) or ('bit 15 is the texel\'s' if kind.is_textured else '')


def shaded(kind: Kind) -> str:
    return drawn(kind) or ('' if 'shaded' in kind.look else 'has one colour')


def dithered(kind: Kind) -> str:
    """Where the table begins: for packets that are dithered."""
    is_dithered = kind.family == LINES or kind.family == POLYGONS and kind.look not in ('flat', 'raw', 'shaded raw')
    return moves(kind) or ('' if is_dithered else 'is not dithered')


def textured(kind: Kind) -> str:
    return '' if kind.is_textured else 'has no texture'


def flipped(kind: Kind) -> str:
    return textured(kind) or ('has one cell' if kind.shape == '1 by 1' else '')


def wrapped_texels(kind: Kind) -> str:
    return flipped(kind) or ('has U and V between those of its vertices' if kind.family == POLYGONS else '')


def written(kind: Kind) -> str:
    return 'writes no cell' if kind.shape.startswith('store') else ''


def every(kind: Kind) -> str:
    return ''


def cut(kind: Kind) -> str:
    return 'wraps' if kind.family == TRANSFERS else ''


def cut_right(kind: Kind) -> str:
    if kind.family in (POLYGONS, LINES):
        return 'has vertices up to X 1023'
    return cut(kind) or ('is at X 1023 at most' if kind.shape == '1 by 1' else '')


def ordered(kind: Kind) -> str:
    return '' if kind.family in (POLYGONS, LINES) else 'has no second vertex'


def sloped(kind: Kind) -> str:
    return '' if kind.family in (POLYGONS, LINES) else 'has no slope'


def mapped(kind: Kind) -> str:
    return textured(kind) or ('has U and V one to one' if kind.family == RECTANGLES else '')


def limited(kind: Kind) -> str:
    if kind.family == RECTANGLES:
        return '' if kind.shape == 'given size' else 'has a fixed size'
    return 'may have any size' if kind.family == TRANSFERS else ''


def sized(kind: Kind) -> str:
    return '' if kind.family == TRANSFERS or kind.shape == 'given size' else 'has no size word'


def transferred(kind: Kind) -> str:
    return '' if kind.family == TRANSFERS else 'is cut at the edges'


def large(kind: Kind) -> str:
    return '' if kind.family == TRANSFERS else 'the size rule has it'


def all_bits(kind: Kind) -> str:
    if kind.family != TRANSFERS:
        return 'has a colour or texels'
    return 'has a colour' if kind.shape == 'fill' else ''


def by_depth(rule: str, count: int = 3, first: int = 0) -> Dict[str, Reason]:
    """Returns a row for each depth."""
    return {'%s, %s' % (rule, bits): textured for bits in BITS[first:count]}


REASONS: Dict[str, Reason] = {
    'colour': colored, 'bit 15 is cleared': cleared, 'shading': shaded, 'rounding of colours': shaded,
    'dither': moves, 'place in the dither table': dithered,
    **{rule: drawn for rule in BLENDS}, 'opaque': moves, **by_depth('bit 15 chooses blending'),
    'modulation or raw': textured, 'limit of modulation': textured,
    'mask set': written, 'mask kept': written,
    'offset in X': every, 'offset in Y': every,
    **{'area: ' + edge: every for edge in ('left', 'top', 'right', 'bottom')},
    'left of X 0': cut, 'above Y 0': cut, 'right of X 1023': cut_right, 'below Y 511': cut,
    'bits above the coordinates': every, 'order of vertices': ordered, 'cells of a slope': sloped,
    'size rule in X': limited, 'size rule in Y': limited, 'size 0': sized,
    **by_depth('page X'), **by_depth('page Y'), **by_depth('palette X', 2), **by_depth('palette Y', 2), **by_depth('U'),
    **by_depth('V'), **by_depth('texel 0000h'), **by_depth('bit 15 of a texel'), **by_depth('page wraps', 3, 1),
    'palette wraps': textured, 'rounding of U and V': mapped,
    'window: mask of U': textured, 'window: mask of V': textured, 'window: offset of U': textured,
    'window: offset of V': textured, 'flip in X': flipped, 'flip in Y': flipped, 'both flips': flipped,
    'U from 255 to 0': wrapped_texels, 'V from 255 to 0': wrapped_texels,
    'control words between': every, 'all bits of a cell': all_bits, 'wrap in X': transferred, 'wrap in Y': transferred,
    'large size': large}


def tested(tests: Iterable[Test]) -> Cells:
    """Returns the cells that tests name. Raises ValueError for a mark that is no cell."""
    names = {kind.name for kind in KINDS}
    out: Cells = {}
    for test in tests:
        for rule, kind in sorted(test.marks):
            if rule not in REASONS or kind not in names:
                raise ValueError('%s: %s, %s: not in the table' % (test.full_name, rule, kind))
            out.setdefault((rule, kind), []).append(test.full_name)
    return out


def faults(tests: Iterable[Test]) -> List[str]:
    """Returns a line for each cell that is empty, and for each that has both tests and a reason."""
    cells = tested(tests)
    out = []
    for rule, reason in REASONS.items():
        for kind in KINDS:
            is_tested, why = (rule, kind.name) in cells, reason(kind)
            if is_tested == bool(why):
                out.append('%s: %s: %s' % (rule, kind.name, 'tested, though it ' + why if is_tested else 'empty'))
    return out


def summary(tests: Iterable[Test]) -> str:
    """Returns a sentence with the numbers of the table."""
    cells = tested(tests)
    return '%d rules by %d kinds of packet are %d cells: %d have tests, in %d the rule does not apply.' % (
        len(REASONS), len(KINDS), len(REASONS) * len(KINDS), len(cells), len(REASONS) * len(KINDS) - len(cells))


def looks_named(looks: Sequence[str], kinds: Sequence[Kind]) -> str:
    """Returns some looks of a family: by their texture if that is what they have in common."""
    for has_texture, text in ((True, 'with a texture'), (False, 'without a texture')):
        if set(looks) == {kind.look for kind in kinds if kind.is_textured == has_texture}:
            return text
    return ', '.join(looks)


def named(kinds: Sequence[Kind], all_of_them: Sequence[Kind]) -> str:
    """Returns what some kinds of a family have in common: their shapes and their looks, each only if not all are
    there."""
    shapes_of: Dict[str, List[str]] = {}
    for kind in kinds:
        shapes_of.setdefault(kind.look, []).append(kind.shape)
    looks_of: Dict[Tuple[str, ...], List[str]] = {}
    for look, shapes in shapes_of.items():
        looks_of.setdefault(tuple(shapes), []).append(look)
    every_shape, every_look = {kind.shape for kind in all_of_them}, {kind.look for kind in all_of_them}
    parts = []
    for some, looks in looks_of.items():
        names = [', '.join(some)] if set(some) != every_shape else []
        names += [looks_named(looks, all_of_them)] if set(looks) != every_look else []
        parts.append(' '.join(names))
    text = ' and '.join(parts)
    for word in ('load', 'store'):
        text = text.replace('%s, low half, %s, high half' % (word, word), word)
    return text


def field(rule: str, family: str, cells: Cells) -> str:
    """Returns what the cells of a row have in a family, each text with the kinds that have it unless all have the
    same."""
    kinds = [kind for kind in KINDS if kind.family == family]
    found: Dict[str, List[Kind]] = {}
    for kind in kinds:
        names = cells.get((rule, kind.name), [])
        found.setdefault(' '.join('`%s`' % name for name in names) or REASONS[rule](kind), []).append(kind)
    return '; '.join(text if len(found) == 1 else '%s: %s' % (named(some, kinds), text) for text, some in found.items())


def markdown(tests: Iterable[Test]) -> str:
    """Returns the table: a line for each rule, a field for each family of packets."""
    cells = tested(tests)
    rows = [['rule', *FAMILIES], ['---'] * (1 + len(FAMILIES))]
    rows += [[rule, *(field(rule, family, cells) for family in FAMILIES)] for rule in REASONS]
    return '\n'.join('| %s |' % ' | '.join(row) for row in rows)
