"""The mask setting: GP0(E6h)."""
from __future__ import annotations

from psxgpu.capture import draw_mode, line, mask_setting, polygon, rectangle, texture_page
from psxgpu.conformance.suite import Chapter, Draft

CHAPTER = Chapter('mask', 'GP0(E6h) Mask Bit Setting')
RED, CELL = 0x0000FF, 0x001F
GREEN = 0x00FF00


@CHAPTER.test('Bit 0: rectangles, polygons and lines set bit 15 of what they draw.')
def forces_bit_15(t: Draft) -> None:
    t.open()
    t.before(mask_setting(force=True))
    t.packet(rectangle(RED, 0, 0, 2, 1), polygon([(4, 0), (6, 0), (4, 1), (6, 1)], RED), line([(8, 0), (10, 0)], RED))
    t.ignore(10, 0, 1)
    for x in (0, 4, 8):
        t.box(x, 0, 2, 1, CELL | 0x8000)


@CHAPTER.test('Bit 1: rectangles, polygons and lines leave cells with bit 15.')
def keeps_bit_15(t: Draft) -> None:
    t.open()
    t.given(0, 0, 6, [0x8000, 0x0000] * 3)
    t.before(mask_setting(keep=True))
    t.packet(rectangle(RED, 0, 0, 2, 1), polygon([(2, 0), (4, 0), (2, 1), (4, 1)], RED), line([(4, 0), (6, 0)], RED))
    t.ignore(6, 0, 1)
    t.row(0, 0, [0x8000, CELL] * 3)


@CHAPTER.test('Bit 0 alone does not keep cells with bit 15.')
def force_does_not_keep(t: Draft) -> None:
    t.open()
    t.given(0, 0, 2, [0x8000, 0x0000])
    t.before(mask_setting(force=True))
    t.packet(rectangle(RED, 0, 0, 2, 1))
    t.row(0, 0, [CELL | 0x8000] * 2)


@CHAPTER.test('Bits 0 and 1: what is drawn first stays.')
def first_stays(t: Draft) -> None:
    t.open()
    t.before(mask_setting(force=True, keep=True))
    t.packet(rectangle(RED, 0, 0, 4, 4), rectangle(GREEN, 2, 2, 4, 4))
    t.box(2, 2, 4, 4, 0x83E0)
    t.box(0, 0, 4, 4, CELL | 0x8000)


@CHAPTER.test('Without bit 0 a flat packet clears bit 15.')
def flat_clears_bit_15(t: Draft) -> None:
    t.open()
    t.given(0, 0, 1, [0xFFFF])
    t.packet(rectangle(RED, 0, 0, 1, 1))
    t.cell(0, 0, CELL)


@CHAPTER.test('Without bit 0 a texture brings its own bit 15.')
def texture_brings_bit_15(t: Draft) -> None:
    t.open()
    t.given(512, 0, 2, [0x8001, 0x0001])
    t.given(0, 0, 2, [0x0000, 0x8000])
    t.before(draw_mode(texture_page(512, 0, 2)))
    t.packet(rectangle(0, 0, 0, 2, 1, texture=(0, 0), raw=True))
    t.row(0, 0, [0x8001, 0x0001])


@CHAPTER.test('The test looks at the cell that is there, and not at the texel.')
def tests_the_cell(t: Draft) -> None:
    t.open()
    t.given(512, 0, 2, [0x8001, 0x0001])
    t.given(0, 0, 2, [0x0000, 0x8000])
    t.before(draw_mode(texture_page(512, 0, 2)), mask_setting(keep=True))
    t.packet(rectangle(0, 0, 0, 2, 1, texture=(0, 0), raw=True))
    t.row(0, 0, [0x8001, 0x8000])


@CHAPTER.test('A texel of 0000h is not drawn where bit 15 is forced.')
def texel_0_is_not_forced(t: Draft) -> None:
    t.open()
    t.given(512, 0, 2, [0x0000, 0x0001])
    t.before(draw_mode(texture_page(512, 0, 2)), mask_setting(force=True))
    t.packet(rectangle(0, 0, 0, 2, 1, texture=(0, 0), raw=True))
    t.row(0, 0, [0x0000, 0x8001])


@CHAPTER.test('A forced bit 15 does not make a texel semi-transparent.')
def forced_bit_does_not_blend(t: Draft) -> None:
    t.open()
    t.given(512, 0, 2, [0x0001] * 2)
    t.given(0, 0, 2, [0x0421] * 2)
    t.before(draw_mode(texture_page(512, 0, 2, 1)), mask_setting(force=True))
    t.packet(rectangle(0, 0, 0, 2, 1, texture=(0, 0), semi=True, raw=True))
    t.row(0, 0, [0x8001] * 2)


@CHAPTER.test('Bits 2 to 23 mean nothing.')
def bits_above(t: Draft) -> None:
    t.open()
    t.before(0xE6FFFFFC)
    t.given(0, 0, 2, [0x8000, 0x0000])
    t.packet(rectangle(RED, 0, 0, 2, 1))
    t.row(0, 0, [CELL, CELL])
