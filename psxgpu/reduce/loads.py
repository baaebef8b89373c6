"""Smaller and plainer loads."""
from __future__ import annotations

from array import array
from collections import Counter
from itertools import chain
from typing import Iterable, Iterator, List, Tuple

from psxgpu.packets.grammar import LOAD, cells_of, data_words, name_and_length
from psxgpu.reduce.units import Unit, load_unit
from psxgpu.stream import GP0

MOST_CELLS = 1 << 12        # a load of more cells is not simplified cell by cell
COMMON = 4                  # how many of its most common cells are tried for all of them


def load_parts(unit: Unit) -> Tuple[int, int, int, int, array[int]]:
    """Returns corner, size and cells of a load."""
    w, h = cells_of(unit.words[2])
    cells = array('H', array('I', unit.words[3:]).tobytes())[:w * h]
    return unit.words[1] & 0x3FF, unit.words[1] >> 16 & 0x3FF, w, h, cells


def is_open(unit: Unit) -> bool:
    """Returns whether a load has fewer data words than its size wants."""
    return len(unit.words) - 3 < data_words(unit.words[2])


def like(unit: Unit, x: int, y: int, w: int, h: int, cells: Iterable[int]) -> Unit:
    """Returns a load with the first word of another one: its opcode need not be A0h."""
    return unit.with_words((unit.words[0], *load_unit(x, y, w, h, cells).words[1:]))


def cut_load(unit: Unit, left: int, top: int, right: int, bottom: int) -> Unit:
    """Returns a part of a load, by how many columns and rows are cut off at each side. A load that is not whole has
    the cells that it has there."""
    x, y, w, h, cells = load_parts(unit)
    part = array('H')
    for row in range(top, h - bottom):
        part.extend(cells[row * w + left:(row + 1) * w - right])
    return like(unit, x + left, y + top, w - left - right, h - top - bottom, part)


def moved_load(unit: Unit, dx: int, dy: int) -> Unit:
    """Returns the load to the left and up by `dx` and `dy`, as far as there are cells."""
    x, y, w, h, cells = load_parts(unit)
    return like(unit, max(0, x - dx), max(0, y - dy), w, h, cells)


def smaller_boxes(unit: Unit) -> Iterator[Unit]:
    """Yields loads without a half, a quarter .. at each side."""
    _, _, w, h, _ = load_parts(unit)
    part = 2
    while part <= 2 * max(w, h):
        wide, high = -(-w // part), -(-h // part)
        for cut in ((wide, 0, 0, 0), (0, high, 0, 0), (0, 0, wide, 0), (0, 0, 0, high)):
            if cut[0] + cut[2] < w and cut[1] + cut[3] < h:
                yield cut_load(unit, *cut)
        part *= 2


def halves(unit: Unit) -> List[Unit]:
    """Returns two loads in the place of one."""
    _, _, w, h, _ = load_parts(unit)
    if w >= h:
        return [cut_load(unit, 0, 0, w - w // 2, 0), cut_load(unit, w // 2, 0, 0, 0)]
    return [cut_load(unit, 0, 0, 0, h - h // 2), cut_load(unit, 0, h // 2, 0, 0)]


def plainer_cells(unit: Unit) -> Iterator[Unit]:
    """Yields loads of fewer different cells: one for all, then zeros in ever smaller parts."""
    x, y, w, h, cells = load_parts(unit)
    counts = Counter(cells)
    if len(counts) < 2:
        return
    for value, _ in counts.most_common(COMMON):
        yield like(unit, x, y, w, h, [value] * len(cells))
    if len(cells) > MOST_CELLS:
        return
    size = -(-len(cells) // 2)
    while True:
        for at in range(0, len(cells), size):
            part = cells[at:at + size]
            if any(part):
                yield like(unit, x, y, w, h, [*cells[:at], *[0] * len(part), *cells[at + size:]])
        if size == 1:
            return
        size = -(-size // 2)


def shorter_loads(unit: Unit) -> Iterator[Unit]:
    """Yields a load that is not whole with fewer data words, or with no more rows than these begin."""
    count = len(unit.words) - 3
    w, h = cells_of(unit.words[2])
    rows = 2 * count // w + 1
    if not is_open(unit):
        return
    if rows < h:
        yield unit.with_words((*unit.words[:2], rows << 16 | unit.words[2] & 0xFFFF, *unit.words[3:]))
    less = count
    while less:
        yield unit.with_words(unit.words[:3 + count - less])
        less //= 2


def apart_loads(unit: Unit) -> Iterator[Unit]:
    """Yields a packet with other events between its words whose first words are a smaller load, or a shorter one."""
    count = next((k for k, record in enumerate(unit.records) if record[0] != GP0), 0)
    words = tuple(word for _, _, part in unit.records[:count] for word in part)
    if len(words) < 3 or name_and_length(words[0])[0] != LOAD:
        return
    load = Unit(LOAD, words)
    for smaller in chain(shorter_loads(load), smaller_boxes(load), plainer_cells(load)):
        yield Unit(unit.name, (), ((GP0, len(smaller.words), smaller.words), *unit.records[count:]))
