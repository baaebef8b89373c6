"""Copies: GP0(80h), inside of video memory."""
from __future__ import annotations

from psxgpu.capture import copy, drawing_offset, mask_setting
from psxgpu.conformance.packets import COPY, marks
from psxgpu.conformance.suite import OWN, Chapter, Draft

CHAPTER = Chapter('copies', 'GP0(80h) Copy Rectangle (VRAM to VRAM)')
SIX = [0x1111, 0x2222, 0x3333, 0x4444, 0x5555, 0x6666]


@CHAPTER.test('A copy moves a box, and its source stays.')
def moves_a_box(t: Draft) -> None:
    t.given(10, 20, 3, SIX)
    t.packet(copy(10, 20, 40, 50, 3, 2))
    t.row(40, 50, SIX[:3])
    t.row(40, 51, SIX[3:])


@CHAPTER.test('A source over the right edge continues at X 0 of the same row.', marks=marks(['wrap in X'], COPY))
def source_wraps_right(t: Draft) -> None:
    t.given(1022, 4, 2, [0x1111, 0x2222])
    t.given(0, 4, 2, [0x3333, 0x4444])
    t.packet(copy(1022, 4, 100, 9, 4, 1))
    t.row(100, 9, [0x1111, 0x2222, 0x3333, 0x4444])


@CHAPTER.test('A target over the right edge continues at X 0 of the same row.', marks=marks(['wrap in X'], COPY))
def target_wraps_right(t: Draft) -> None:
    t.given(100, 4, 4, SIX[:4])
    t.packet(copy(100, 4, 1022, 9, 4, 1))
    t.row(1022, 9, SIX[:4])


@CHAPTER.test('Source and target wrap from the last row to row 0.', marks=marks(['wrap in Y'], COPY))
def wraps_bottom(t: Draft) -> None:
    t.given(4, 511, 1, [0x1111])
    t.given(4, 0, 1, [0x2222])
    t.packet(copy(4, 511, 9, 511, 1, 2))
    t.cell(9, 511, 0x1111)
    t.cell(9, 0, 0x2222)


@CHAPTER.test('A width of 0 means 1024.', marks=marks(['size 0'], COPY))
def width_0_is_1024(t: Draft) -> None:
    t.given(0, 4, 2, [0x1111, 0x2222])
    t.given(1022, 4, 2, [0x3333, 0x4444])
    t.packet(0x80000000, 4 << 16, 9 << 16, 1 << 16)
    t.row(0, 9, [0x1111, 0x2222])
    t.row(1022, 9, [0x3333, 0x4444])


@CHAPTER.test('A height of 0 means 512.', marks=marks(['size 0'], COPY))
def height_0_is_512(t: Draft) -> None:
    t.given(4, 0, 1, [0x1111])
    t.given(4, 511, 1, [0x2222])
    t.packet(0x80000000, 4, 9, 1)
    t.cell(9, 0, 0x1111)
    t.cell(9, 511, 0x2222)


@CHAPTER.test('A copy one cell to the left moves each cell once.', OWN)
def overlap_left(t: Draft) -> None:
    t.given(10, 4, 6, SIX)
    t.packet(copy(11, 4, 10, 4, 5, 1))
    t.row(10, 4, SIX[1:] + SIX[5:])


@CHAPTER.test('A copy one cell to the right reads what it has just written: the first cell is smeared.', OWN)
def overlap_right(t: Draft) -> None:
    t.given(10, 4, 6, SIX)
    t.packet(copy(10, 4, 11, 4, 5, 1))
    t.row(10, 4, [0x1111] * 6)


@CHAPTER.test('A copy one row up moves each row once.', OWN)
def overlap_up(t: Draft) -> None:
    t.given(10, 4, 2, SIX)
    t.packet(copy(10, 5, 10, 4, 2, 2))
    t.row(10, 4, SIX[2:4])
    t.row(10, 5, SIX[4:])
    t.row(10, 6, SIX[4:])


@CHAPTER.test('A copy one row down reads the row that it has just written: the first row is smeared.', OWN)
def overlap_down(t: Draft) -> None:
    t.given(10, 4, 2, SIX)
    t.packet(copy(10, 4, 10, 5, 2, 2))
    for y in (4, 5, 6):
        t.row(10, y, SIX[:2])


@CHAPTER.test('X has ten bits, Y nine, the width ten and the height nine: what is above them is dropped.',
              marks=marks(['bits above the coordinates'], COPY))
def bits_above(t: Draft) -> None:
    t.given(10, 4, 2, SIX[:2])
    t.packet(0x80000000, 0xFE04FC0A, 0xFE09FC14, 0xFE01FC02)
    t.row(20, 9, SIX[:2])


@CHAPTER.test('A copy is not cut by the drawing area, nor moved by the drawing offset.')
def ignores_area_and_offset(t: Draft) -> None:
    t.open(0, 0, 0, 0)
    t.before(drawing_offset(30, 30))
    t.given(10, 4, 2, SIX[:2])
    t.packet(copy(10, 4, 20, 9, 2, 1))
    t.row(20, 9, SIX[:2])


@CHAPTER.test('A copy takes bit 15 of its source with it.')
def takes_bit_15(t: Draft) -> None:
    t.given(10, 4, 2, [0x8001, 0x0002])
    t.packet(copy(10, 4, 20, 4, 2, 1))
    t.row(20, 4, [0x8001, 0x0002])


@CHAPTER.test('A copy sets bit 15 where GP0(E6h) bit 0 is 1.', section='GP0(E6h) Mask Bit Setting',
              marks=marks(['mask set'], COPY))
def forces_bit_15(t: Draft) -> None:
    t.given(10, 4, 2, [0x0001, 0x0002])
    t.before(mask_setting(force=True))
    t.packet(copy(10, 4, 20, 4, 2, 1))
    t.row(20, 4, [0x8001, 0x8002])


@CHAPTER.test('A copy leaves cells with bit 15 where GP0(E6h) bit 1 is 1.', section='GP0(E6h) Mask Bit Setting',
              marks=marks(['mask kept'], COPY))
def keeps_bit_15(t: Draft) -> None:
    t.given(10, 4, 2, SIX[:2])
    t.given(20, 4, 2, [0x8001, 0x0002])
    t.before(mask_setting(keep=True))
    t.packet(copy(10, 4, 20, 4, 2, 1))
    t.row(20, 4, [0x8001, 0x2222])


@CHAPTER.test('Bits 24 to 28 of the first word mean nothing: 9Fh copies as 80h does.', OWN)
def opcode_9f_is_80(t: Draft) -> None:
    t.given(10, 4, 2, SIX[:2])
    t.packet(0x9FFFFFFF, copy(10, 4, 20, 4, 2, 1)[1:])
    t.row(20, 4, SIX[:2])
