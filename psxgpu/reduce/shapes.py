"""The last packet moved or made smaller, and the loads that it reads moved or cut together with it."""
from __future__ import annotations

from typing import Iterator, List, Tuple

from psxgpu.packets.parts import signed, texcoord_of
from psxgpu.packets.grammar import (COPY, ENVIRONMENT, LINE, LOAD, POLYGON, RECTANGLE, STORE, TEXTURED, cells_of,
                                    data_words)
from psxgpu.packets.texels import SHIFTS, Box, texture_of
from psxgpu.reduce.layout import places_of
from psxgpu.reduce.loads import cut_load, load_parts, moved_load
from psxgpu.reduce.needs import offset_of, sources_of, target_of
from psxgpu.reduce.units import Registers, Unit
from psxgpu.stream import READ
from psxgpu.words import corner

Units = List[Unit]
DRAWN = (POLYGON, LINE, RECTANGLE)
PARTS = ((1, 2), (3, 4))


def shifted(unit: Unit, dx: int, dy: int) -> Unit:
    """Returns a drawn packet to the left and up by `dx` and `dy`."""
    words = list(unit.words)
    for k in places_of(unit, 'vertex'):
        words[k] = corner((signed(words[k]) - dx) & 0x7FF, (signed(words[k] >> 16) - dy) & 0x7FF)
    return unit.with_words(words)


def at_zero(unit: Unit) -> Iterator[Unit]:
    """Yields a drawn packet whose least vertex is (0, 0), or near it: the dither table is four by four."""
    points = places_of(unit, 'vertex') if unit.name in DRAWN else []
    if points:
        x, y = (min(signed(unit.words[k] >> shift) for k in points) for shift in (0, 16))
        for dx, dy in ((x, y), (x, 0), (0, y), (x & ~3, y & ~3)):
            yield shifted(unit, dx, dy)


def scaled(value: int, low: int, part: Tuple[int, int]) -> int:
    """Returns a number whose distance from `low` is a part of that of `value`."""
    return low + (value - low) * part[0] // part[1]


def halved(unit: Unit) -> Iterator[Unit]:
    """Yields a polygon or line of half or three quarters of its size, its texture with it or not."""
    points = places_of(unit, 'vertex') if unit.name in (POLYGON, LINE) else []
    if not points:
        return
    coords = places_of(unit, 'texcoord')
    left, top = (min(signed(unit.words[k] >> shift) for k in points) for shift in (0, 16))
    low_u, low_v = (min((unit.words[k] >> shift & 255 for k in coords), default=0) for shift in (0, 8))
    for part in PARTS:
        words = list(unit.words)
        for k in points:
            x, y = signed(words[k]), signed(words[k] >> 16)
            words[k] = corner(scaled(x, left, part) & 0x7FF, scaled(y, top, part) & 0x7FF)
        smaller = list(words)
        for k in coords:
            u, v = texcoord_of(words[k])
            smaller[k] = words[k] & 0xFFFF0000 | scaled(v, low_v, part) << 8 | scaled(u, low_u, part)
        yield unit.with_words(smaller)
        yield unit.with_words(words)


def is_in(unit: Unit, box: Box) -> bool:
    """Returns whether a unit is a load that begins in a box."""
    x, y, w, h = box
    if unit.name != LOAD:
        return False
    left, top = unit.words[1] & 0x3FF, unit.words[1] >> 16 & 0x3FF
    return x <= left < x + w and y <= top < y + h


def moved_texture(units: Units, registers: Registers) -> Iterator[Units]:
    """Yields the units with the last packet's texture at the beginning of its page, and the loads there moved along."""
    last = units[-1]
    boxes = texture_of(last.name, last.words, registers)
    coords = places_of(last, 'texcoord') if boxes else []
    if not coords:
        return
    shift = SHIFTS[registers[0xE1] >> 7 & 3]
    cells = min(last.words[k] & 255 for k in coords) >> shift
    rows = min(last.words[k] >> 8 & 255 for k in coords)
    words = list(last.words)
    for k in coords:
        words[k] -= rows << 8 | cells << shift
    yield [moved_load(unit, cells, rows) if is_in(unit, boxes[0]) else unit
           for unit in units[:-1]] + [last.with_words(words)]


def moved_target(units: Units, registers: Registers) -> Iterator[Units]:
    """Yields the units with the last packet at the corner of video memory, without offset, and the loads there moved
    along."""
    last = units[-1]
    boxes = target_of(last.name, last.words, registers) if last.name in DRAWN else []
    if not boxes:
        return
    x, y = boxes[0][:2]
    ox, oy = offset_of(registers)
    kept = [unit for unit in units[:-1] if not (unit.name == ENVIRONMENT and unit.opcode == 0xE5)]
    for dx, dy in {(x, y), (x & ~3, y & ~3)}:       # the dither table is four by four
        loads = [moved_load(unit, dx, dy) if is_in(unit, boxes[0]) else unit for unit in kept]
        yield loads + [shifted(last, dx - ox, dy - oy)]


def moved_copy(units: Units) -> Iterator[Units]:
    """Yields the units with the last packet's source at the corner of video memory, or source and target both nearer
    to it by as much, and the loads of the source moved along."""
    last = units[-1]
    if last.name != COPY:
        return
    (x, y), (to_x, to_y) = ((word & 0x3FF, word >> 16 & 0x3FF) for word in last.words[1:3])
    box = (x, y, *cells_of(last.words[3]))
    near = min(x, to_x), min(y, to_y)
    for (dx, dy), moves_target in (((x, y), False), (near, True), ((x & ~15, y & ~15), False)):
        loads = [moved_load(unit, dx, dy) if is_in(unit, box) else unit for unit in units[:-1]]
        target = corner(to_x - dx, to_y - dy) if moves_target else last.words[2]
        yield loads + [last.with_words((last.words[0], corner(x - dx, y - dy), target, last.words[3]))]


def fewer_cells(size: int) -> Iterator[Tuple[int, int]]:
    """Yields smaller widths and heights: half, three quarters, one less."""
    w, h = cells_of(size)
    for part, of in PARTS:
        yield max(1, w * part // of), h
        yield w, max(1, h * part // of)
    yield max(1, w - 1), h
    yield w, max(1, h - 1)


def cropped(unit: Unit, box: Box, less: Tuple[int, int], from_end: bool) -> Unit:
    """Returns a load of a source box after the box lost columns and rows: at its end, or, if `from_end`, at its
    beginning, what is left of the load moving there."""
    if not is_in(unit, box):
        return unit
    x, y, w, h, cells = load_parts(unit)
    if len(cells) < w * h:
        return unit
    if from_end:
        left, top = max(0, box[0] + less[0] - x), max(0, box[1] + less[1] - y)
        if left >= w or top >= h:
            return unit
        return moved_load(cut_load(unit, left, top, 0, 0), less[0], less[1])
    right = max(0, x + w - (box[0] + box[2] - less[0]))
    bottom = max(0, y + h - (box[1] + box[3] - less[1]))
    return unit if right >= w or bottom >= h else cut_load(unit, 0, 0, right, bottom)


def sized(units: Units, at: int, size: int) -> Units:
    """Returns the units with another size in the packet at `at`, and as many reads after a store as it then has."""
    unit = units[at]
    out = units[:at] + [unit.with_words((*unit.words[:-1], size))] + units[at + 1:]
    if unit.name == STORE and at + 1 < len(units) and len(units[at + 1].records) == 1:
        kind, count, words = units[at + 1].records[0]
        if kind == READ and count == data_words(unit.words[-1]):
            out[at + 1] = Unit(units[at + 1].name, (), ((kind, data_words(size), words),))
    return out


def together(units: Units, at: int, registers: Registers) -> Iterator[Units]:
    """Yields units with a smaller rectangle, copy or store at `at`, the loads of its source cut together with it, and
    the reads of a store with it."""
    unit = units[at]
    has_size = unit.name in (COPY, STORE) or unit.name == RECTANGLE and places_of(unit, 'size')
    if not has_size:
        return
    old = cells_of(unit.words[-1]) if unit.name != RECTANGLE else (unit.words[-1] & 0x3FF, unit.words[-1] >> 16 & 0x1FF)
    boxes = sources_of(unit.name, unit.words, registers)[:1]       # not its palette
    shift = SHIFTS[registers[0xE1] >> 7 & 3] if unit.name == RECTANGLE and unit.opcode & TEXTURED else 0
    for w, h in fewer_cells(corner(*old)):
        smaller = sized(units, at, corner(w, h))
        yield smaller
        less = (old[0] - w) >> shift, old[1] - h
        for from_end in (True, False):
            for box in boxes:
                yield [cropped(it, box, less, from_end) for it in smaller[:at]] + smaller[at:]
