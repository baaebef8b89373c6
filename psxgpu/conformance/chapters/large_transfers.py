"""Large fills, copies, loads and stores, and control words between the words of each."""
from __future__ import annotations

from typing import List

from psxgpu.capture import copy, load, store
from psxgpu.conformance.chapters import copies, cuts, fills, loads, stores
from psxgpu.conformance.chapters.transfers import numbers, small_area, words_of
from psxgpu.conformance.packets import COPY, FILL, LOADS, STORES, marks
from psxgpu.conformance.suite import FORMULA, PSX_SPX, Draft


@fills.CHAPTER.test('A fill of 1024 by 511 leaves one row, whatever the drawing area is.',
                    marks=marks(['large size'], FILL))
def nearly_all(t: Draft) -> None:
    small_area(t)
    t.packet(fills.fill_words(0, 0, 0x3FF, 511))
    t.box(0, 0, 1024, 511, fills.CELL)


@copies.CHAPTER.test('A copy of more than 512 columns and of more than 256 rows moves all of its cells.',
                     worked=FORMULA,
                     marks=marks(['large size'], COPY))
def more_than_half(t: Draft) -> None:
    row, column = numbers(600), numbers(300)
    t.given(0, 0, 600, row)
    t.given(1000, 100, 1, column)
    t.packet(copy(0, 0, 100, 2, 600, 1), copy(1000, 100, 1010, 90, 1, 300))
    t.row(100, 2, row)
    for y in range(300):
        t.cell(1010, 90 + y, column[y])


@loads.CHAPTER.test('A load of more than 512 columns and one of more than 256 rows move all of their cells.',
                    worked=FORMULA,
                    marks=marks(['large size'], *LOADS))
def many_cells(t: Draft) -> None:
    for x, y, width, height in ((100, 0, 600, 5), (1000, 100, 5, 300)):
        cells = numbers(width * height)
        t.packet(load(x, y, width, height, cells))
        for down in range(height):
            t.row(x, y + down, cells[width * down:width * down + width])


@stores.CHAPTER.test('A store of more than 512 columns and one of more than 256 rows read all of their cells.',
                     worked=FORMULA, marks=marks(['large size'], *STORES))
def many_cells_read(t: Draft) -> None:
    for x, y, width, height in ((100, 0, 600, 3), (1000, 100, 3, 300)):
        cells = numbers(width * height)
        t.given(x, y, width, cells)
        t.packet(store(x, y, width, height))
        t.read(*words_of(cells))


# Control words.

CONTROL = 0x02000000, 0x03000000, 0x04000000, 0x05000000, 0x06C60260, 0x07040010, 0x08000001


def between(t: Draft, words: List[int]) -> None:
    """Writes words, with control words between them."""
    for at, word in enumerate(words):
        t.packet(word)
        if at < len(words) - 1:
            t.gp1(CONTROL)


@cuts.CHAPTER.test('GP1(02h) to GP1(08h) between its words leave a transfer whole, and between its reads a store.',
                   PSX_SPX, FORMULA, marks=marks(['control words between'], FILL, COPY, *LOADS, *STORES))
def control_words_in_transfers(t: Draft) -> None:
    cells = numbers(9)
    between(t, load(3, 3, 3, 3, cells))
    between(t, copy(3, 3, 33, 3, 3, 3))
    between(t, fills.fill_words(64, 3, 16, 3))
    for y in range(3):
        for x in (3, 33):
            t.row(x, 3 + y, cells[3 * y:3 * y + 3])
    t.box(64, 3, 16, 3, fills.CELL)
    between(t, store(3, 3, 3, 2))
    for word in words_of(cells[:6]):
        t.gp1(CONTROL)
        t.read(word)
