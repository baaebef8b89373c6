"""Planted faults of some kinds of packet alone: each was once in a player that passed every test."""
from __future__ import annotations

from collections.abc import Callable
from typing import Any

from psxgpu.conformance.packets import LINES, POLYGONS, RECTANGLES, STORES, Kind
from suite_trials.kinds import KindMachine as K
from suite_trials.model.pixels import TABLE
from suite_trials.model.values import Vertex
from suite_trials.planted import fault_in
from suite_trials.table_faults import Broken, every, is_drawn, of
from suite_trials.table_places import counted_from_the_cut
from suite_trials.table_texels import turned


def shapes(*names: str) -> Callable[[Kind], bool]:
    return lambda kind: kind.shape in names


def looks(family: str, *names: str) -> Callable[[Kind], bool]:
    return lambda kind: kind.family == family and kind.look in names


def textured_polygon(kind: Kind) -> bool:
    return kind.family == POLYGONS and kind.is_textured


def with_palette(method: Callable[..., Any]) -> Broken:
    """Breaks a method where the texels have a palette."""
    return lambda m, old, *words: method(m, *words) if m.depth() < 2 else old(m, *words)


def in_four_bits(method: Callable[..., Any]) -> Broken:
    return lambda m, old, *words: method(m, old, *words) if m.depth() == 0 else old(m, *words)


def second_not_moved(m: K, old: Broken, vertex: Vertex) -> Any:
    """The first vertex of a line alone is moved."""
    m.count += 1
    return vertex if m.count % 2 == 0 else old(m, vertex)


def stores_end_after(cells: int) -> Broken:
    """A store ends after a number of cells."""
    def box(m: K, old: Broken, corner: int, size: int) -> Any:
        x, y, width, height = old(m, corner, size)
        return (x, y, width, height) if width * height <= cells else (x, y, width, max(cells // width, 1))
    return box


SHADED_TEXTURED = looks(POLYGONS, 'shaded textured')
fault_in('the second half of an upside-down quad is left out', 'polygons', shapes('second half'), 'triangle',
         lambda m, old, first, points, clut: None if points[2].y < points[0].y else old(m, first, points, clut))
fault_in('polygons draw a texel of 0000h', 'texels', of(POLYGONS), 'is_drawn', lambda m, old, texel: True)
fault_in('polygons obey the flips', 'rectangles', of(POLYGONS), 'texel', turned(True, True, False))
fault_in('the palette of polygons has its X below 256', 'texels', of(POLYGONS), 'palette_place',
         lambda m, old, clut: (old(m, clut)[0] & 255, old(m, clut)[1]))
fault_in('the second half of a quad has no size rule', 'polygons', shapes('second half'), 'is_near',
         lambda m, old, points: True)
fault_in('shaded textured polygons are not dithered', 'dither', SHADED_TEXTURED, 'dithers_polygon',
         lambda m, old, first: False)
fault_in('shaded textured polygons are not blended', 'blending', SHADED_TEXTURED, 'blends',
         lambda m, old, first, texel: False)
fault_in('flat triangles are not blended', 'blending',
         lambda kind: kind.shape == 'triangle' and kind.look == 'flat', 'blends',
         lambda m, old, first, texel: False)
fault_in('texels of a palette are blended without bit 15', 'blending', is_drawn, 'blends',
         with_palette(lambda m, first, texel: bool(first >> 25 & 1)))
fault_in('bit 15 of a texel is lost with a palette', 'texels', is_drawn, 'top_bit', with_palette(lambda m, texel: 0))
fault_in('triangles are not dithered', 'dither', shapes('triangle'), 'dithers_polygon', lambda m, old, first: False)
fault_in('the dither table begins at the drawing area', 'dither', is_drawn, 'dither',
         lambda m, old, x, y: TABLE[(y - m.area()[1]) % 4][(x - m.area()[0]) % 4])
fault_in('textured polygons have no offset', 'area', textured_polygon, 'moves', lambda m, old: (0, 0))
fault_in('8 by 8 rectangles have no offset', 'area', shapes('8 by 8'), 'moves', lambda m, old: (0, 0))
fault_in('the second point of a shaded line has no offset', 'area', looks(LINES, 'shaded'), 'placed', second_not_moved)
fault_in('textured polygons do not force bit 15', 'mask', textured_polygon, 'forced', lambda m, old: 0)
fault_in('shaded lines do not force bit 15', 'mask', looks(LINES, 'shaded'), 'forced', lambda m, old: 0)
fault_in('shaded polygons do not keep cells', 'mask', looks(POLYGONS, 'shaded'), 'is_kept', lambda m, old, x, y: False)
fault_in('loads heed the mask setting in low halves alone', 'loads', shapes('load, high half'), 'is_kept',
         lambda m, old, x, y: False)
fault_in('loads force bit 15 in low halves alone', 'loads', shapes('load, high half'), 'forced', lambda m, old: 0)
fault_in('4 bits: the page is at Y 0', 'texels', is_drawn, 'page_place', in_four_bits(lambda m, old: (old(m)[0], 0)))
fault_in('4 bits: U has seven bits', 'texels', is_drawn, 'texel',
         in_four_bits(lambda m, old, u, *rest: old(m, u & 127, *rest)))
fault_in('8 by 8 rectangles are not flipped', 'rectangles', shapes('8 by 8'), 'flips', lambda m, old: (0, 0))
fault_in('16 by 16 rectangles are not flipped', 'rectangles', shapes('16 by 16'), 'flips', lambda m, old: (0, 0))
fault_in('of both flips one counts', 'rectangles', of(RECTANGLES), 'flips',
         lambda m, old: (1, 0) if all(old(m)) else old(m))
fault_in('texels of a rectangle begin at X 0', 'area', of(RECTANGLES), 'texture_place', counted_from_the_cut(False))
fault_in('a store loses bit 15', 'stores', STORES.__contains__, 'read_cell', lambda m, old, x, y: old(m, x, y) & 0x7FFF)
fault_in('a store ends after 1024 cells', 'stores', STORES.__contains__, 'moved_box', stores_end_after(1024))
fault_in('a fill of 511 rows is cut by the drawing area', 'fills', shapes('fill'), 'fill_cell',
         lambda m, old, x, y, value: (
             old(m, x, y, value) if m.rows_filled != 511 or m.is_inside_area(x, y) else None))
fault_in('GP1(02h) drops what is unfinished', 'cuts', every, 'gp1',
         lambda m, old, word: m.start_clean() if word >> 24 == 2 else old(m, word))
fault_in('4 bits: a flipped rectangle of odd width loses its last column', 'rectangles', shapes('given size'),
         'rectangle_size', in_four_bits(lambda m, old, size: (old(m, size)[0] & ~m.flips()[0], old(m, size)[1])))
