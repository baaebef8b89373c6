"""Fills, copies, loads and stores: both halves of a word, and what they do not look at."""
from __future__ import annotations

from typing import List

from psxgpu.capture import copy, draw_mode, drawing_area, drawing_offset, load, mask_setting, store, texture_page
from psxgpu.conformance.chapters import copies, fills, loads, stores
from psxgpu.conformance.packets import COPY, FILL, LOADS, STORES, marks
from psxgpu.conformance.suite import FORMULA, Draft, rgb

NOT_ASKED = ('offset in X', 'offset in Y', 'area: left', 'area: top', 'area: right', 'area: bottom')


def numbers(count: int) -> List[int]:
    """Returns cells that differ, none of them 0."""
    return [1 + 251 * at % 0xFFFE for at in range(count)]


def words_of(cells: List[int]) -> List[int]:
    """Returns what reads of these cells return."""
    return [low | high << 16 for low, high in zip(cells[::2], cells[1::2])]


def small_area(t: Draft) -> None:
    """A drawing area inside of the boxes that are moved, and an offset."""
    t.before(drawing_area(20, 18, 25, 20), drawing_offset(100, 50))


# What a transfer does not look at.

@fills.CHAPTER.test('A fill is not cut at any edge of the drawing area, nor moved by the drawing offset.',
                    marks=marks(NOT_ASKED, FILL))
def beyond_the_area(t: Draft) -> None:
    small_area(t)
    t.packet(fills.fill_words(16, 16, 16, 8))
    t.box(16, 16, 16, 8, fills.CELL)


@fills.CHAPTER.test('A fill is neither dithered nor blended.', marks=marks(('dither', 'opaque'), FILL))
def ignores_the_draw_mode(t: Draft) -> None:
    t.before(load(0, 0, 16, 4, [0x1234] * 64), draw_mode(texture_page(0, 0, 0, 1), dither=True))
    t.packet(0x02474747, 0, 4 << 16 | 16)
    t.box(0, 0, 16, 4, rgb(0x474747))


@copies.CHAPTER.test('A copy is not cut at any edge of the drawing area, nor moved by the drawing offset.',
                     worked=FORMULA,
                     marks=marks(NOT_ASKED, COPY))
def copied_beyond_the_area(t: Draft) -> None:
    cells = numbers(128)
    t.given(400, 100, 16, cells)
    small_area(t)
    t.packet(copy(400, 100, 16, 16, 16, 8))
    for y in range(8):
        t.row(16, 16 + y, cells[16 * y:16 * y + 16])


@loads.CHAPTER.test('A load is not cut at any edge of the drawing area, nor moved by the drawing offset.',
                    worked=FORMULA,
                    marks=marks(NOT_ASKED, *LOADS))
def loaded_beyond_the_area(t: Draft) -> None:
    small_area(t)
    t.packet(load(16, 16, 16, 8, numbers(128)))
    for y in range(8):
        t.row(16, 16 + y, numbers(128)[16 * y:16 * y + 16])


@stores.CHAPTER.test('A store is not cut at any edge of the drawing area, nor moved by the drawing offset.',
                     worked=FORMULA,
                     marks=marks(NOT_ASKED, *STORES))
def ignores_area_and_offset(t: Draft) -> None:
    cells = numbers(128)
    t.given(16, 16, 16, cells)
    small_area(t)
    t.packet(store(16, 16, 16, 8))
    t.read(*words_of(cells))


# Bits above the fields: what is after the transfer, and beside its source, shows the size.

@loads.CHAPTER.test('After a load with bits above those of its size the next word is a packet.',
                    marks=marks(['bits above the coordinates'], *LOADS))
def a_packet_after_bits_above(t: Draft) -> None:
    t.packet(0xA0000000, 0xFE09FC11, 0xFE02FC02, 0x22221111, 0x44443333, fills.fill_words(64, 9, 16, 1))
    t.row(0x11, 9, [0x1111, 0x2222])
    t.row(0x11, 10, [0x3333, 0x4444])
    t.box(64, 9, 16, 1, fills.CELL)


@copies.CHAPTER.test('A copy with bits above those of its fields moves no cell more.',
                     marks=marks(['bits above the coordinates'], COPY))
def no_cell_more(t: Draft) -> None:
    t.given(10, 4, 4, [0x1111] * 16)
    t.packet(0x80000000, 0xFE04FC0A, 0xFE14FC14, 0xFE02FC02)
    t.box(20, 20, 2, 2, 0x1111)


# Each bit, in the low and in the high half of a word.

BITS = [1 << at // 2 for at in range(32)]


@copies.CHAPTER.test('A copy moves each of the sixteen bits.', worked=FORMULA,
                     marks=marks(['all bits of a cell'], COPY))
def each_bit(t: Draft) -> None:
    t.given(0, 0, 32, BITS)
    t.packet(copy(0, 0, 64, 9, 32, 1))
    t.row(64, 9, BITS)


@loads.CHAPTER.test('A load moves each of the sixteen bits, in the low and in the high half of a word.', worked=FORMULA,
                    marks=marks(['all bits of a cell'], *LOADS))
def each_bit_of_both_halves(t: Draft) -> None:
    t.packet(load(0, 0, 32, 1, BITS))
    t.row(0, 0, BITS)


@stores.CHAPTER.test('A store moves each of the sixteen bits, in the low and in the high half of a word.',
                     worked=FORMULA,
                     marks=marks(['all bits of a cell'], *STORES))
def each_bit_of_a_word(t: Draft) -> None:
    t.given(0, 0, 32, BITS)
    t.packet(store(0, 0, 32, 1))
    t.read(*words_of(BITS))


# The mask setting in both halves.

@loads.CHAPTER.test('A load sets bit 15 of both halves of a word.', section='GP0(E6h) Mask Bit Setting',
                    marks=marks(['mask set'], *LOADS))
def forces_both_halves(t: Draft) -> None:
    t.before(mask_setting(force=True))
    t.packet(load(2, 2, 4, 1, [0x0001, 0x0002, 0x8003, 0x8004]))
    t.row(2, 2, [0x8001, 0x8002, 0x8003, 0x8004])


@loads.CHAPTER.test('A load leaves a cell with bit 15, by the low and by the high half of a word.',
                    section='GP0(E6h) Mask Bit Setting', marks=marks(['mask kept'], *LOADS))
def keeps_both_halves(t: Draft) -> None:
    t.given(2, 2, 4, [0x8001, 0x0002, 0x0003, 0x8004])
    t.before(mask_setting(keep=True))
    t.packet(load(2, 2, 4, 1, [0x1111, 0x2222, 0x3333, 0x4444]))
    t.row(2, 2, [0x8001, 0x2222, 0x3333, 0x8004])


# The edges, with rows of an odd width: each cell of a row is once in a low and once in a high half.

@loads.CHAPTER.test('A load over both edges continues at 0, in the low and in the high half of a word.', worked=FORMULA,
                    marks=marks(['wrap in X', 'wrap in Y'], *LOADS))
def wraps_both_halves(t: Draft) -> None:
    cells = numbers(20)
    t.packet(load(1022, 510, 5, 4, cells))
    for y in range(4):
        t.row(1022, (510 + y) % 512, cells[5 * y:5 * y + 5])


@stores.CHAPTER.test('A store over both edges continues at 0, in the low and in the high half of a word.',
                     worked=FORMULA,
                     marks=marks(['wrap in X', 'wrap in Y'], *STORES))
def wraps_both_ways(t: Draft) -> None:
    cells = numbers(20)
    for y in range(4):
        row = cells[5 * y:5 * y + 5]
        t.given(1022, (510 + y) % 512, 2, row[:2])
        t.given(0, (510 + y) % 512, 3, row[2:])
    t.packet(store(1022, 510, 5, 4))
    t.read(*words_of(cells))
