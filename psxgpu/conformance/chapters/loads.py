"""Loads: GP0(A0h), from the processor to video memory."""
from __future__ import annotations

from psxgpu.capture import drawing_offset, load, mask_setting, rectangle
from psxgpu.conformance.packets import LOADS, marks
from psxgpu.conformance.suite import FORMULA, OWN, Chapter, Draft

CHAPTER = Chapter('loads', 'GP0(A0h) Copy Rectangle (CPU to VRAM)')


def ramp(count: int) -> list[int]:
    """Cells that are all different, none with bit 15."""
    return [0x0123 + 7 * at & 0x7FFF for at in range(count)]


@CHAPTER.test('Each data word holds two cells, the low half first, row after row.')
def low_half_first(t: Draft) -> None:
    t.packet(0xA0000000, 3 << 16 | 5, 2 << 16 | 4, 0x22221111, 0x44443333, 0x66665555, 0x08887777)
    t.row(5, 3, [0x1111, 0x2222, 0x3333, 0x4444])
    t.row(5, 4, [0x5555, 0x6666, 0x7777, 0x0888])


@CHAPTER.test('Rows need not begin at a whole word: with an odd width a word holds the end of one and the next.')
def odd_width(t: Draft) -> None:
    t.packet(load(8, 8, 3, 2, [1, 2, 3, 4, 5, 6]))
    t.row(8, 8, [1, 2, 3])
    t.row(8, 9, [4, 5, 6])


@CHAPTER.test('The spare half of an odd count is dropped, and the next word is a packet.')
def odd_count(t: Draft) -> None:
    t.open()
    t.packet(0xA0000000, 0, 1 << 16 | 3, 0x22221111, 0x7FFF3333, rectangle(0x0000FF, 9, 0, 1, 1))
    t.row(0, 0, [0x1111, 0x2222, 0x3333])
    t.cell(9, 0, 0x001F)


@CHAPTER.test('A load over the right edge continues at X 0 of the same row.', worked=FORMULA)
def wraps_right(t: Draft) -> None:
    t.packet(load(1022, 12, 4, 2, ramp(8)))
    t.row(1022, 12, ramp(8)[:4])
    t.row(1022, 13, ramp(8)[4:])


@CHAPTER.test('A load over the bottom continues at row 0.', worked=FORMULA)
def wraps_bottom(t: Draft) -> None:
    t.packet(load(20, 510, 2, 4, ramp(8)))
    for down in range(4):
        t.row(20, (510 + down) % 512, ramp(8)[2 * down:2 * down + 2])


@CHAPTER.test('A width of 0 means 1024.', worked=FORMULA, marks=marks(['size 0'], *LOADS))
def width_0_is_1024(t: Draft) -> None:
    cells = ramp(1024)
    t.packet(0xA0000000, 6 << 16, 1 << 16, load(0, 0, 1024, 1, cells)[3:])
    t.row(0, 6, cells)


@CHAPTER.test('A height of 0 means 512.', worked=FORMULA, marks=marks(['size 0'], *LOADS))
def height_0_is_512(t: Draft) -> None:
    cells = ramp(512)
    t.packet(0xA0000000, 6, 1, load(0, 0, 512, 1, cells)[3:])
    for y in range(512):
        t.cell(6, y, cells[y])


@CHAPTER.test('X has ten bits, Y nine, the width ten and the height nine: what is above them is dropped.',
              marks=marks(['bits above the coordinates'], *LOADS))
def bits_above(t: Draft) -> None:
    t.packet(0xA0000000, 0xFE09 << 16 | 0xFC11, 0xFE01 << 16 | 0xFC02, 0x22221111)
    t.row(0x11, 9, [0x1111, 0x2222])


@CHAPTER.test('A load is not cut by the drawing area, nor moved by the drawing offset.')
def ignores_area_and_offset(t: Draft) -> None:
    t.open(0, 0, 0, 0)
    t.before(drawing_offset(100, 50))
    t.packet(load(2, 0, 2, 1, [0x1111, 0x2222]))
    t.row(2, 0, [0x1111, 0x2222])


@CHAPTER.test('A load sets bit 15 of its cells where GP0(E6h) bit 0 is 1.', section='GP0(E6h) Mask Bit Setting')
def forces_bit_15(t: Draft) -> None:
    t.before(mask_setting(force=True))
    t.packet(load(2, 2, 2, 1, [0x0001, 0x8002]))
    t.row(2, 2, [0x8001, 0x8002])


@CHAPTER.test('A load leaves cells with bit 15 where GP0(E6h) bit 1 is 1.', section='GP0(E6h) Mask Bit Setting')
def keeps_bit_15(t: Draft) -> None:
    t.given(2, 2, 4, [0x8001, 0x0002, 0x8003, 0x0004])
    t.before(mask_setting(keep=True))
    t.packet(load(2, 2, 4, 1, [0x1111, 0x2222, 0x3333, 0x4444]))
    t.row(2, 2, [0x8001, 0x2222, 0x8003, 0x4444])


@CHAPTER.test('Bits 24 to 28 of the first word mean nothing: BFh loads as A0h does.', OWN)
def bf_is_a0(t: Draft) -> None:
    t.packet(0xBFFFFFFF, 0, 1 << 16 | 2, 0x22221111)
    t.row(0, 0, [0x1111, 0x2222])


@CHAPTER.test('Control words that are no reset may come between the data words of a load.', OWN)
def control_word_between(t: Draft) -> None:
    t.packet(0xA0000000, 0, 1 << 16 | 4, 0x22221111)
    t.gp1(0x03000000, 0x04000002)
    t.packet(0x44443333)
    t.row(0, 0, [0x1111, 0x2222, 0x3333, 0x4444])
