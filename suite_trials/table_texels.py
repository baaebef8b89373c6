"""Faults by the table: pages, palettes, U and V, windows, flips and texels."""
from __future__ import annotations

from collections.abc import Callable
from typing import Any, Tuple

from suite_trials.table_faults import Broken, K, of, where
from psxgpu.conformance.packets import POLYGONS, RECTANGLES
from psxgpu.conformance.table import BITS

Place = Tuple[int, int]


def without(number: int, bit: int) -> Callable[[Place], Place]:
    """Returns a place without a bit of its X (0) or its Y (1)."""
    return lambda place: (place[0] & ~bit, place[1]) if number == 0 else (place[0], place[1] & ~bit)


def at_depth(rule: str, says: str, depth: int, method: str, broken: Broken) -> None:
    """Plants a fault of one depth."""
    where('%s, %s' % (rule, BITS[depth]), says, method,
          lambda m, old, *words: broken(m, old, *words) if min(m.depth(), 2) == depth else old(m, *words))


def bits_lost(rule: str, number: int, method: str, depth: int, bits: range, unit: int) -> None:
    """Plants a fault for each bit of a place."""
    for bit in bits:
        change = without(number, unit << bit)
        at_depth(rule, 'bit %d is lost' % bit, depth, method,
                 lambda m, old, *words, change=change: change(old(m, *words)))


def turned(is_x: bool, is_y: bool, is_both: bool) -> Broken:
    """A polygon obeys the flips."""
    def texel(m: K, old: Broken, u: int, v: int, clut: int) -> Any:
        flips = m.flips()
        is_on = all(flips) if is_both else bool(is_x and flips[0] or is_y and flips[1])
        return old(m, u ^ 7 * (is_on and is_x), v ^ 7 * (is_on and is_y), clut)
    return texel


for _depth in range(3):
    bits_lost('page X', 0, 'page_place', _depth, range(4), 64)
    bits_lost('page Y', 1, 'page_place', _depth, range(1), 256)
    if _depth < 2:
        bits_lost('palette X', 0, 'palette_place', _depth, range(6), 16)
        bits_lost('palette Y', 1, 'palette_place', _depth, range(9), 1)
        at_depth('texel 0000h', 'index 0 is not drawn', _depth, 'palette_entry',
                 lambda m, old, clut, index: old(m, clut, index) if index else 0)
    if _depth:
        at_depth('page wraps', 'it ends at the edge', _depth, 'texel_cell',
                 lambda m, old, x, y: 0 if x > 1023 else old(m, x, y))
    for _bit in range(8):
        at_depth('U', 'bit %d is lost' % _bit, _depth, 'texel',
                 lambda m, old, u, v, clut, bit=_bit: old(m, u & ~(1 << bit), v, clut))
        at_depth('V', 'bit %d is lost' % _bit, _depth, 'texel',
                 lambda m, old, u, v, clut, bit=_bit: old(m, u, v & ~(1 << bit), clut))
    at_depth('texel 0000h', 'it is drawn', _depth, 'is_drawn', lambda m, old, texel: True)
    at_depth('bit 15 of a texel', 'it is lost', _depth, 'top_bit', lambda m, old, texel: 0)
    at_depth('bit 15 of a texel', 'it is always 1', _depth, 'top_bit', lambda m, old, texel: 0x8000)
where('rounding of U and V', 'to the nearest', 'texel_mean',
      lambda m, old, total, area: (2 * total + area) // (2 * area))
where('palette wraps', 'it ends at the edge', 'palette_entry', lambda m, old, clut, index: (
    0 if m.palette_place(clut)[0] + index > 1023 else old(m, clut, index)))
for _at, _rule in enumerate(('mask of U', 'mask of V', 'offset of U', 'offset of V')):
    for _bit in range(5):
        where('window: ' + _rule, 'bit %d is lost' % _bit, 'window_fields', lambda m, old, at=_at, bit=_bit: tuple(
            field & ~(1 << bit) if number == at else field for number, field in enumerate(old(m))))
for _rule, _is_x, _is_y in (('flip in X', True, False), ('flip in Y', False, True), ('both flips', True, True)):
    where(_rule, 'it is obeyed', 'texel', turned(_is_x, _is_y, _is_x and _is_y), of(POLYGONS))
where('flip in X', 'it is not obeyed', 'flips', lambda m, old: (0, old(m)[1]), of(RECTANGLES))
where('flip in Y', 'it is not obeyed', 'flips', lambda m, old: (old(m)[0], 0), of(RECTANGLES))
for _left in ((0, 0), (1, 0), (0, 1)):
    where('both flips', 'they are %d and %d' % _left, 'flips', lambda m, old, left=_left: (
        left if all(old(m)) else old(m)), of(RECTANGLES))
where('U from 255 to 0', 'it stays at 255', 'texture_place', lambda m, old, u, v, i, j: (
    min(u + i, 255), old(m, u, v, i, j)[1]))
where('V from 255 to 0', 'it stays at 255', 'texture_place', lambda m, old, u, v, i, j: (
    old(m, u, v, i, j)[0], min(v + j, 255)))
