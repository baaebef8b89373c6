"""Faults by the table: offset, drawing area, edges, vertices, sizes, and what transfers have."""
from __future__ import annotations

from collections.abc import Callable
from typing import Any, Tuple

from suite_trials.model.values import Box, Vertex, edge
from suite_trials.table_faults import Broken, K, is_drawn, moved, of, shape, where
from psxgpu.conformance.packets import LINES, POLYGONS, RECTANGLES, Kind

Points = Tuple[Vertex, ...]
EDGES = ('left', 'top', 'right', 'bottom')


def is_cut_by(number: int, m: K, x: int, y: int) -> bool:
    """Returns whether an edge of the drawing area leaves a cell out."""
    bound = m.area()[number]
    return (x < bound, y < bound, x > bound, y > bound)[number]


def opened(number: int) -> Broken:
    return lambda m, old: (*old(m)[:number], (0, 0, 1023, 511)[number], *old(m)[number + 1:])


def narrowed(number: int) -> Broken:
    return lambda m, old: (*old(m)[:number], old(m)[number] + (1, 1, -1, -1)[number], *old(m)[number + 1:])


def counted_from_the_cut(is_y: bool) -> Broken:
    """The texels of a rectangle begin where the drawing area, or video memory, cuts it."""
    def place(m: K, old: Broken, u: int, v: int, right: int, down: int) -> Any:
        lost = max(0, m.area()[is_y] - (m.corner.x, m.corner.y)[is_y])
        return old(m, u, v, right - (0 if is_y else lost), down - (lost if is_y else 0))
    return place


def placed(change: Callable[[int, int], Tuple[int, int]]) -> Broken:
    def vertex(m: K, old: Broken, v: Vertex) -> Vertex:
        there: Vertex = old(m, v)
        there.x, there.y = change(there.x, there.y)
        return there
    return vertex


def with_twelve_bits(m: K, old: Broken, v: Vertex) -> Vertex:
    """A vertex keeps the bit above its eleven."""
    there: Vertex = old(m, v)
    there.x += 2048 * (v.word >> 11 & 1)
    there.y += 2048 * (v.word >> 27 & 1)
    return there


def outside(rule: str, says: str, number: int, bound: int) -> None:
    """A rectangle beyond a bound is left out as a whole."""
    def area(m: K, old: Broken) -> Box:
        whole: Box = old(m)
        return (1, 1, 0, 0) if (m.corner.x, m.corner.y)[number] > bound else whole
    where(rule, says, 'area', area, of(RECTANGLES))


def has_many_cells(kind: Kind) -> bool:
    return kind.family == RECTANGLES and kind.is_textured and kind.shape != '1 by 1'


for _at, _rule in enumerate(('offset in X', 'offset in Y')):
    where(_rule, 'it is lost', 'moves', lambda m, old, at=_at: (0, old(m)[1]) if at == 0 else (old(m)[0], 0), is_drawn)
    where(_rule, 'it has no sign', 'moves', lambda m, old, at=_at: (
        (old(m)[0] & 0x7FF, old(m)[1]) if at == 0 else (old(m)[0], -old(m)[1])), is_drawn)
    moved(_rule, 'it moves', lambda m, x, y, at=_at: (x + m.moves()[0], y) if at == 0 else (x, y + m.moves()[1]))
for _at, _edge in enumerate(EDGES):
    where('area: ' + _edge, 'it does not cut', 'area', opened(_at), is_drawn)
    where('area: ' + _edge, 'it cuts a cell more', 'area', narrowed(_at), is_drawn)
    moved('area: ' + _edge, 'it cuts', lambda m, x, y, at=_at: None if is_cut_by(at, m, x, y) else (x, y))
for _at, _rules in enumerate((('area: left', 'left of X 0'), ('area: top', 'above Y 0'))):
    for _rule in _rules:
        where(_rule, 'the texels begin at the cut', 'texture_place', counted_from_the_cut(_at == 1), has_many_cells)
where('left of X 0', 'X is 0 at least', 'placed', placed(lambda x, y: (max(x, 0), y)),
      lambda kind: kind.family != LINES)
where('above Y 0', 'Y is 0 at least', 'placed', placed(lambda x, y: (x, max(y, 0))), lambda kind: kind.family != LINES)
for _at, _rule in enumerate(('left of X 0', 'above Y 0')):
    where(_rule, 'it is left out', 'is_near', lambda m, old, points, at=_at: (
        old(m, points) and all((p.x, p.y)[at] >= 0 for p in points)), lambda kind: kind.family != RECTANGLES)
outside('right of X 1023', 'it is left out', 0, 1023 - 8)
where('below Y 511', 'Y has nine bits', 'placed', placed(lambda x, y: (x, y & 511)), lambda kind: (
    kind.family != RECTANGLES or kind.shape == '1 by 1'))
outside('below Y 511', 'it is left out', 1, 511 - 8)
where('bits above the coordinates', 'one is kept', 'placed', with_twelve_bits, is_drawn)
where('bits above the coordinates', 'one is kept', 'moved_box', lambda m, old, corner, size: (
    *old(m, corner, size)[:2], ((size & 0xFFFF) - 1 & 0x7FF) + 1, old(m, corner, size)[3]), lambda kind: (
        not is_drawn(kind) and kind.shape != 'fill'))
where('bits above the coordinates', 'nothing is filled', 'fill_box', lambda m, old, corner, size: (
    *old(m, corner, size)[:3], 0 if corner & 0xFE00FC00 else old(m, corner, size)[3]), shape('fill'))


def left_out(is_it: Callable[[Points], bool]) -> Broken:
    """Triangles are left out by their vertices."""
    return lambda m, old, first, points, clut: None if is_it(points) else old(m, first, points, clut)


def area_of(points: Points) -> int:
    return edge(points[0], points[1], points[2].x, points[2].y)


TRIANGLES: tuple[tuple[str, Callable[[Points], bool]], ...] = (
    ('one that goes round to the left is left out', lambda p: area_of(p) < 0),
    ('one that goes round to the right is left out', lambda p: area_of(p) > 0),
    ('one whose last vertex is above its first is left out', lambda p: p[2].y < p[0].y),
    ('one whose last vertex is below its first is left out', lambda p: p[2].y > p[0].y),
    ('one whose last vertex is left of its first is left out', lambda p: p[2].x < p[0].x),
    ('one whose second vertex is left of its first is left out', lambda p: p[1].x < p[0].x),
    ('one whose second vertex is above its first is left out', lambda p: p[1].y < p[0].y))
for _says, _is_it in TRIANGLES:
    where('order of vertices', _says, 'triangle', left_out(_is_it), of(POLYGONS))
for _says, _sign in (('left', (-1, 0)), ('right', (1, 0)), ('up', (0, -1)), ('down', (0, 1))):
    where('order of vertices', 'a line to the %s is left out' % _says, 'is_near', lambda m, old, p, sign=_sign: (
        old(m, p) and not ((p[1].x - p[0].x) * sign[0] > 0 or (p[1].y - p[0].y) * sign[1] > 0)), of(LINES))


for _says, _method, _broken in (
        ('a right edge is drawn in place of a left one', 'is_in', lambda m, old, v, p, q: (
            v > 0 or v == 0 and (q.y > p.y or q.y == p.y and q.x > p.x))),
        ('a lower edge is drawn, too', 'is_in', lambda m, old, v, p, q: old(m, v, p, q) or v == 0 and q.y == p.y),
        ('no cell on an edge is drawn', 'is_in', lambda m, old, v, p, q: v > 0)):
    where('cells of a slope', _says, _method, _broken, of(POLYGONS))
where('cells of a slope', 'halves go down', 'along', lambda m, old, i, j, k, n: i - (2 * k * (i - j) + n) // (2 * n),
      of(LINES))
where('cells of a slope', 'coordinates are rounded down', 'along', lambda m, old, i, j, k, n: i + k * (j - i) // n,
      of(LINES))
where('cells of a slope', 'the last point is left out', 'last_point', lambda m, old, n: n - 1, lambda kind: (
    kind.family == LINES and kind.shape != 'polyline'))


def far_in(is_y: bool, points: Points) -> int:
    numbers = [(p.x, p.y)[is_y] for p in points]
    return max(numbers) - min(numbers)


for _y, _rule in enumerate(('size rule in X', 'size rule in Y')):
    where(_rule, 'a larger one is drawn', 'is_near', lambda m, old, p, y=_y: old(m, p) or (
        far_in(y == 1, p) > (1023, 511)[y] and far_in(y == 0, p) <= (1023, 511)[1 - y]),
          lambda k: k.family != RECTANGLES)
    where(_rule, 'the largest is not drawn', 'is_near', lambda m, old, p, y=_y: (
        old(m, p) and far_in(y == 1, p) < (1023, 511)[y]), lambda k: k.family != RECTANGLES)
    where(_rule, 'it has a bit less', 'rectangle_size', lambda m, old, size, y=_y: (
        (size & 0x1FF, old(m, size)[1]) if y == 0 else (old(m, size)[0], size >> 16 & 0xFF)), of(RECTANGLES))
where('size 0', 'it is 1', 'rectangle_size', lambda m, old, size: tuple(max(one, 1) for one in old(m, size)),
      of(RECTANGLES))
where('size 0', 'it is 1', 'fill_box', lambda m, old, corner, size: (
    *old(m, corner, size)[:2], *(max(one, 1) for one in old(m, corner, size)[2:])), shape('fill'))
where('size 0', 'it is 0', 'moved_box', lambda m, old, corner, size: (
    *old(m, corner, size)[:2], size & 0x3FF, size >> 16 & 0x1FF),
      lambda kind: kind.shape != 'fill' and not is_drawn(kind))
for _letter, _at in (('X', 0), ('Y', 1)):
    moved('wrap in ' + _letter, 'it ends at the edge', lambda m, x, y, at=_at: (
        None if (x, y)[at] > (1023, 511)[at] else (x, y)))
where('wrap in X', 'the source ends at the edge', 'copied', lambda m, old, x, y: 0 if x > 1023 else old(m, x, y),
      shape('copy'))
where('wrap in Y', 'the source ends at the edge', 'copied', lambda m, old, x, y: 0 if y > 511 else old(m, x, y),
      shape('copy'))
for _at, _bits in ((2, 0x1FF), (3, 0xFF)):
    where('large size', 'it has a bit less', 'moved_box', lambda m, old, corner, size, at=_at, bits=_bits: tuple(
        (one - 1 & bits) + 1 if number == at else one for number, one in enumerate(old(m, corner, size))),
          lambda kind: kind.shape != 'fill')
    where('large size', 'it has a bit less', 'fill_box', lambda m, old, corner, size, at=_at, bits=_bits: tuple(
        one & bits if number == at else one for number, one in enumerate(old(m, corner, size))), shape('fill'))
where('large size', 'it is cut by the drawing area', 'fill_cell', lambda m, old, x, y, v: (
    old(m, x, y, v) if m.is_inside_area(x, y) else None), shape('fill'))
for _bit in range(16):
    _says = 'bit %d is lost' % _bit
    for _shape, _method in (('copy', 'plot'), ('load', 'load_cell')):
        where('all bits of a cell', _says, _method, lambda m, old, x, y, v, bit=_bit: old(m, x, y, v & ~(1 << bit)),
              shape(_shape))
    where('all bits of a cell', _says, 'read_cell', lambda m, old, x, y, bit=_bit: old(m, x, y) & ~(1 << bit),
          shape('store'))
for _code in range(2, 9):
    where('control words between', 'GP1(%02Xh) drops what is unfinished' % _code, 'gp1',
          lambda m, old, word, code=_code: (
        m.start_clean() if word >> 24 == code else old(m, word)))
