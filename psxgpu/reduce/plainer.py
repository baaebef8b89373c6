"""Packets of fewer words or properties."""
from __future__ import annotations

from typing import Iterator, List, Sequence, Tuple

from psxgpu.packets.grammar import (ENVIRONMENT, LINE, LOAD, POLYGON, POLYLINE, QUAD, RAW, RECTANGLE, SEMI, SHADED,
                                    SIZE_CODE, TEXTURED, ends_polyline)
from psxgpu.packets.parts import polygon_parts, polygon_words
from psxgpu.reduce.layout import GRAY, WHOLE_AREA
from psxgpu.reduce.loads import shorter_loads
from psxgpu.reduce.units import Unit
from psxgpu.words import vertex

Points = Sequence[Tuple[int, int]]
SMALLER_CODES = {0x18: (0x08, 0x10), 0x10: (0x08,)}     # 16 by 16 and 8 by 8: one cell and what is between
ONE_CELL = 0x00010001


def polygon(opcode: int, points: Points, colors: Sequence[int], coords: Sequence[int]) -> Unit:
    """Returns the polygon of these parts; `opcode` has its properties."""
    opcode = 0x20 | opcode & (SHADED | TEXTURED | SEMI | RAW) | (QUAD if len(points) == 4 else 0)
    shades = [color & 0xFFFFFF for color in (colors if opcode & SHADED else colors[:1])]
    return Unit(POLYGON, tuple(polygon_words(opcode, [vertex(*point) for point in points], shades,
                                             coords if opcode & TEXTURED else ())))


def attributed(coords: Sequence[int], places: Sequence[int]) -> List[int]:
    """Returns the texcoords at these places, palette and page in the first two."""
    picked = [coords[k] & 0xFFFF for k in places]
    picked[0] |= coords[0] & 0xFFFF0000
    picked[1] |= coords[1] & 0xFFFF0000
    return picked


def triangles(unit: Unit) -> Iterator[Unit]:
    """Yields the two triangles of a quad."""
    points, colors, coords = polygon_parts(unit.words)
    for places in ((0, 1, 2), (1, 2, 3)) if len(points) == 4 else ():
        yield polygon(unit.opcode, [points[k] for k in places],
                      [colors[k] for k in places] if len(colors) > 1 else colors,
                      attributed(coords, places) if coords else [])


def plainer_polygons(unit: Unit) -> Iterator[Unit]:
    """Yields the polygon without its texture, shades, factor or blending."""
    opcode = unit.opcode
    points, colors, coords = polygon_parts(unit.words)
    if opcode & TEXTURED:
        yield polygon(opcode & ~(TEXTURED | RAW), points, colors, [])
        if opcode & SHADED:
            yield polygon(opcode & ~SHADED | RAW, points, [GRAY], coords)
        yield polygon(opcode | RAW, points, colors, coords)
    if opcode & SHADED:
        yield polygon(opcode & ~SHADED, points, [GRAY if opcode & TEXTURED else colors[0]], coords)
    if opcode & SEMI:
        yield polygon(opcode & ~SEMI, points, colors, coords)
    if opcode & TEXTURED and not opcode & RAW:
        yield polygon(opcode, points, [GRAY] * len(colors), coords)


def segments(unit: Unit) -> Iterator[Unit]:
    """Yields the segments of a polyline."""
    words, shaded = unit.words, unit.opcode & SHADED
    step = 2 if shaded else 1
    ended = words[:-1] if ends_polyline(words[-1]) else words
    vertices = ended[1::step]
    colors = ended[0::2] if shaded else [words[0]] * len(vertices)
    head = (unit.opcode & ~POLYLINE) << 24
    for a, b, first, second in zip(vertices, vertices[1:], colors, colors[1:]):
        one = head | first & 0xFFFFFF
        yield Unit(LINE, (one, a, second & 0xFFFFFF, b) if shaded else (one, a, b))


def plainer_lines(unit: Unit) -> Iterator[Unit]:
    """Yields segments of a polyline, a flat line, an opaque one."""
    words, opcode = unit.words, unit.opcode
    if opcode & POLYLINE:
        yield from segments(unit)
    elif opcode & SHADED:
        yield Unit(LINE, (words[0] & ~(SHADED << 24), words[1], words[3]))
    if opcode & SEMI:
        yield unit.with_words((words[0] & ~(SEMI << 24), *words[1:]))


def plainer_rectangles(unit: Unit) -> Iterator[Unit]:
    """Yields the rectangle without its texture, factor or blending, and of a smaller fixed size."""
    words, opcode = unit.words, unit.opcode
    if opcode & TEXTURED:
        yield unit.with_words((words[0] & ~((TEXTURED | RAW) << 24), words[1], *words[3:]))
        if not opcode & RAW:
            yield unit.with_words((words[0] | RAW << 24, *words[1:]))
            yield unit.with_words((words[0] & 0xFF000000 | GRAY, *words[1:]))
    if opcode & SEMI:
        yield unit.with_words((words[0] & ~(SEMI << 24), *words[1:]))
    for code in SMALLER_CODES.get(opcode & SIZE_CODE, ()):
        yield unit.with_words((words[0] & ~(SIZE_CODE << 24) | code << 24, *words[1:]))
    if not opcode & SIZE_CODE and words[-1] & 0x01FF03FF == ONE_CELL:
        yield unit.with_words((words[0] | 0x08 << 24, *words[1:-1]))


def plainer(unit: Unit, is_tall: bool) -> Iterator[Unit]:
    """Yields packets of fewer words or properties, the boldest first."""
    if unit.name == POLYGON:
        yield from triangles(unit)
        yield from plainer_polygons(unit)
    elif unit.name == LINE:
        yield from plainer_lines(unit)
    elif unit.name == RECTANGLE:
        yield from plainer_rectangles(unit)
    elif unit.name == LOAD:
        yield from shorter_loads(unit)
    elif unit.name == ENVIRONMENT and unit.opcode == 0xE4:
        yield unit.with_words((WHOLE_AREA[is_tall],))
