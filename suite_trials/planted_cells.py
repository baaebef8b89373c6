"""Planted faults: fills, transfers, drawing area, offset, rectangles."""
from __future__ import annotations

from typing import Any

from suite_trials.model import Machine
from suite_trials.model.values import signed
from suite_trials.planted import M, fault


def masked_fill(m: Machine, corner: int, size: int) -> tuple[int, int, int, int]:
    x, y, _, height = M.fill_box(m, corner, size)
    return x, y, (size + 15 & 0x3FF) & ~15, height


def with_mask_test(m: Machine, x: int, y: int, value: int) -> None:
    m.plot(x, y, value)


def copied_by_rows(m: Machine, words: list[int]) -> None:
    """Each row is read as a whole before it is written."""
    source, target = m.moved_box(words[1], words[3]), m.moved_box(words[2], words[3])
    for down in range(source[3]):
        row = [m.get(source[0] + right, source[1] + down) for right in range(source[2])]
        for right, value in enumerate(row):
            m.plot(target[0] + right, target[1] + down, value)


def copied_as_if_read_first(m: Machine, words: list[int]) -> None:
    cells = [m.get(*place) for place in m.places(m.moved_box(words[1], words[3]))]
    for place, value in zip(m.places(m.moved_box(words[2], words[3])), cells):
        m.plot(*place, value)


def sizes_0(m: Machine, corner: int, size: int) -> tuple[int, int, int, int]:
    x, y, _, _ = M.moved_box(m, corner, size)
    return x, y, size & 0x3FF, size >> 16 & 0x1FF


def carried(m: Machine, box: tuple[int, int, int, int]) -> list[tuple[int, int]]:
    """Over the right edge into the next row."""
    return [(x % 1024, y + x // 1024) for x, y in M.places(m, box)]


def narrowed(x1: int, y1: int, x2: int, y2: int) -> tuple[int, int, int, int]:
    return x1, y1, x2 - 1, y2


def wrapped(vertex: Any) -> Any:
    vertex.x, vertex.y = signed(vertex.x), signed(vertex.y)
    return vertex


# Fills and transfers.
fault('a fill\'s X is not rounded', 'fills', fill_box=lambda m, c, s: (c & 0x3FF, *M.fill_box(m, c, s)[1:]))
fault('a fill\'s width is masked after the rounding', 'fills', fill_box=masked_fill)
fault('a fill tests and forces bit 15', 'fills', fill_cell=with_mask_test)
fault('a fill keeps the low bit of green', 'fills', fill_cell=lambda m, x, y, v: m.put(x, y, v ^ 0x20))
fault('a box over the right edge goes on a row lower', 'loads copies stores',
      places=lambda m, box: iter(carried(m, box)))
fault('the halves of a load are exchanged', 'loads', halves=lambda m, word: (word >> 16, word & 0xFFFF))
fault('a load does not look at the mask setting', 'loads', load_plot=lambda m, x, y, v: m.put(x, y, v))
fault('a size of 0 is 0', 'loads copies stores', moved_box=sizes_0)
fault('an odd store is padded with ones', 'stores', padding=lambda m: 0xFFFF)
fault('a store\'s word does not become the latch', 'reads', keep=lambda m, word: word)
fault('a copy reads a row before it writes it', 'copies', copy=copied_by_rows)
fault('a copy reads all before it writes', 'copies', copy=copied_as_if_read_first)
# Where a primitive draws.
fault('the drawing area ends one cell early', 'area', area=lambda m: narrowed(*M.area(m)))
fault('the drawing area\'s Y keeps ten bits', 'area reads', corner_bits=lambda m: 0xFFFFF)
fault('the offset\'s Y has no sign', 'area', moves=lambda m: (signed(m.offset), m.offset >> 11))
fault('the sum of vertex and offset wraps at eleven bits', 'area', placed=lambda m, v: wrapped(M.placed(m, v)))
fault('a rectangle\'s width keeps eleven bits', 'rectangles', rectangle_size=lambda m, s: (s & 0x7FF, s >> 16 & 0x1FF))
fault('the flips are exchanged', 'rectangles', flips=lambda m: M.flips(m)[::-1])
fault('a flipped U has its lowest bit set', 'rectangles',
      texture_place=lambda m, u, v, i, j: M.texture_place(m, u | m.flips()[0], v, i, j))
fault('rectangles are dithered', 'rectangles', dithers_rectangles=lambda m: True)
fault('the flip in Y is lost from the seventeenth column on', 'rectangles',
      texture_place=lambda m, u, v, i, j: M.texture_place(m, u, v, i, -j if i > 15 and m.flips()[1] else j))
