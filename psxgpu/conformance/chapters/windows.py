"""Texture windows: GP0(E2h)."""
from __future__ import annotations

from psxgpu.capture import clut, draw_mode, polygon, rectangle, texture_page, texture_window
from psxgpu.conformance.suite import FORMULA, Chapter, Draft

CHAPTER = Chapter('windows', 'GP0(E2h) Texture Window setting')
PAGE = texture_page(512, 0, 2)


def windowed(at: int, mask: int, offset: int) -> int:
    """Bits that the mask names come from the offset; both in steps of 8 texels."""
    return at & ~(8 * mask) | 8 * (offset & mask)


def window(t: Draft, mask: int, offset: int) -> None:
    """A row of 64 texels through a window in X."""
    t.open()
    texels = [0x1000 + at for at in range(64)]
    t.given(512, 0, 64, texels)
    t.before(draw_mode(PAGE), texture_window(mask, 0, offset, 0))
    t.packet(rectangle(0, 8, 8, 64, 1, texture=(0, 0), raw=True))
    t.row(8, 8, [texels[windowed(at, mask, offset)] for at in range(64)])


@CHAPTER.test('A mask of 1Eh repeats 16 texels.', worked=FORMULA)
def repeats_16(t: Draft) -> None:
    window(t, 0x1E, 0)


@CHAPTER.test('The offset chooses which texels repeat.', worked=FORMULA)
def offset(t: Draft) -> None:
    window(t, 0x1E, 4)


@CHAPTER.test('The offset counts only in the bits of the mask.', worked=FORMULA)
def offset_under_the_mask(t: Draft) -> None:
    window(t, 0x02, 0x05)


@CHAPTER.test('A mask with holes takes bit by bit.', worked=FORMULA)
def mask_with_holes(t: Draft) -> None:
    window(t, 0x05, 0x01)


@CHAPTER.test('V has a mask and an offset of its own.')
def vertical(t: Draft) -> None:
    t.open()
    t.given(512, 0, 1, [0x1000 + at for at in range(32)])
    t.before(draw_mode(PAGE), texture_window(0, 0x1F, 0, 1))
    t.packet(rectangle(0, 8, 8, 1, 16, texture=(0, 0), raw=True))
    for down in range(16):
        t.cell(8, 8 + down, 0x1008 + down % 8)


@CHAPTER.test('V: a mask of 1Eh repeats 16 rows, and the offset chooses which.', worked=FORMULA)
def vertical_repeats_16(t: Draft) -> None:
    t.open()
    t.given(512, 0, 1, [0x1000 + at for at in range(64)])
    t.before(draw_mode(PAGE), texture_window(0, 0x1E, 0, 4))
    t.packet(rectangle(0, 8, 8, 1, 32, texture=(0, 0), raw=True))
    for down in range(32):
        t.cell(8, 8 + down, 0x1000 + windowed(down, 0x1E, 4))


@CHAPTER.test('With 4 bits the window counts texels, and not cells.')
def four_bits(t: Draft) -> None:
    t.open()
    t.given(0, 480, 16, [0x1000 + at for at in range(16)])
    t.given(512, 0, 4, [0x3210, 0x7654, 0xBA98, 0xFEDC])
    t.before(draw_mode(texture_page(512, 0, 0)), texture_window(0x1F, 0, 1, 0))
    t.packet(rectangle(0, 8, 8, 16, 1, texture=(0, 0), palette=clut(0, 480), raw=True))
    t.row(8, 8, [0x1008 + at % 8 for at in range(16)])


@CHAPTER.test('The window holds for polygons, too.')
def polygons(t: Draft) -> None:
    t.open()
    texels = [0x1000 + at for at in range(16)]
    t.given(512, 0, 16, texels)
    t.before(texture_window(0x1F, 0, 1, 0))
    t.packet(polygon([(8, 8), (24, 8), (8, 9), (24, 9)], 0, texture=[(0, 0), (16, 0), (0, 0), (16, 0)], page=PAGE,
                     raw=True))
    t.row(8, 8, [texels[8 + at % 8] for at in range(16)])


@CHAPTER.test('U continues from 255 to 0 before the window is applied.')
def after_the_wrap(t: Draft) -> None:
    t.open()
    texels = [0x1000 + at for at in range(16)]
    t.given(512, 0, 16, texels)
    t.before(draw_mode(PAGE), texture_window(0x1E, 0, 0, 0))
    t.packet(rectangle(0, 8, 8, 4, 1, texture=(254, 0), raw=True))
    t.row(8, 8, [texels[14], texels[15], texels[0], texels[1]])
