"""Depths, pages, palettes, and texels that are not drawn."""
from __future__ import annotations

from psxgpu.capture import clut, draw_mode, load, rectangle, texture_page
from psxgpu.conformance.suite import OWN, Chapter, Draft

CHAPTER = Chapter('textures', 'GPU Video Memory (VRAM): Texture Bitmaps, Texture Palettes')
PALETTE = [0x1000 + 0x111 * at for at in range(16)]
COLORS = 256


def sprite(x: int, y: int, width: int, u: int = 0, v: int = 0, palette: int = 0) -> list[int]:
    """A raw row of texels; with its size as a word, since not every emulator knows 6Dh."""
    return [0x65000000, y << 16 | x, palette << 16 | v << 8 | u, 1 << 16 | width]


@CHAPTER.test('4 bits: a cell has four texels, the lowest four bits being the left one.')
def four_bits(t: Draft) -> None:
    t.open()
    t.given(0, 480, 16, PALETTE)
    t.given(512, 0, 2, [0x3210, 0xFEDC])
    t.before(draw_mode(texture_page(512, 0, 0)))
    t.packet(sprite(8, 8, 8, palette=clut(0, 480)))
    t.row(8, 8, PALETTE[:4] + PALETTE[12:])


@CHAPTER.test('4 bits: V chooses the row of the page.')
def four_bits_second_row(t: Draft) -> None:
    t.open()
    t.given(0, 480, 16, PALETTE)
    t.given(512, 0, 1, [0x3210, 0x7654])
    t.before(draw_mode(texture_page(512, 0, 0)))
    t.packet(sprite(8, 8, 4, 0, 1, clut(0, 480)))
    t.row(8, 8, PALETTE[4:8])


@CHAPTER.test('8 bits: a cell has two texels, the low byte being the left one.')
def eight_bits(t: Draft) -> None:
    t.open()
    t.given(0, 480, COLORS, [0x1000 + at for at in range(COLORS)])
    t.given(512, 0, 2, [0x7F01, 0xFE80])
    t.before(draw_mode(texture_page(512, 0, 1)))
    t.packet(sprite(8, 8, 4, palette=clut(0, 480)))
    t.row(8, 8, [0x1001, 0x107F, 0x1080, 0x10FE])


@CHAPTER.test('15 bits: a cell is a texel.')
def fifteen_bits(t: Draft) -> None:
    t.open()
    t.given(512, 0, 2, [0x1234, 0x8765])
    t.before(draw_mode(texture_page(512, 0, 2)))
    t.packet(sprite(8, 8, 2))
    t.row(8, 8, [0x1234, 0x8765])


@CHAPTER.test('Depth 3 is read as 15 bits.', OWN)
def depth_3(t: Draft) -> None:
    t.open()
    t.given(512, 0, 2, [0x1234, 0x8765])
    t.before(draw_mode(texture_page(512, 0, 3)))
    t.packet(sprite(8, 8, 2))
    t.row(8, 8, [0x1234, 0x8765])


@CHAPTER.test('A texel whose value is 0000h is not drawn; in 15 bits that is the cell itself.')
def texel_0(t: Draft) -> None:
    t.open()
    t.given(512, 0, 3, [0x0000, 0x8000, 0x0001])
    t.given(8, 8, 3, [0x7FFF] * 3)
    t.before(draw_mode(texture_page(512, 0, 2)))
    t.packet(sprite(8, 8, 3))
    t.row(8, 8, [0x7FFF, 0x8000, 0x0001])


@CHAPTER.test('With a palette the entry decides, and not the index: index 0 is drawn where its entry is not 0000h.')
def entry_0_and_index_0(t: Draft) -> None:
    t.open()
    t.given(0, 480, 16, [0x1234, 0x0000] + [0x0421] * 14)
    t.given(512, 0, 1, [0x2110])
    t.given(8, 8, 4, [0x7FFF] * 4)
    t.before(draw_mode(texture_page(512, 0, 0)))
    t.packet(sprite(8, 8, 4, palette=clut(0, 480)))
    t.row(8, 8, [0x1234, 0x7FFF, 0x7FFF, 0x0421])


@CHAPTER.test('A texel 0000h under a colour that is not black stays undrawn, and a texel made black is drawn.')
def black_by_color(t: Draft) -> None:
    t.open()
    t.given(512, 0, 2, [0x0000, 0x0001])
    t.given(8, 8, 2, [0x7FFF] * 2)
    t.before(draw_mode(texture_page(512, 0, 2)))
    t.packet(rectangle(0x010101, 8, 8, 2, 1, texture=(0, 0)))
    t.row(8, 8, [0x7FFF, 0x0000])


@CHAPTER.test('The page is at X 64 times GP0(E1h) bits 0 to 3, and Y 256 times bit 4.',
              section='GP0(E1h) Draw Mode setting')
def place_of_the_page(t: Draft) -> None:
    t.open()
    for at, (x, y) in enumerate([(0, 256), (64, 0), (128, 256), (512, 0), (832, 256)]):
        t.given(x + 5, y + 3, 1, [0x1111 * (at + 1)])
        t.before(draw_mode(texture_page(x, y, 2)))
        t.packet(sprite(300 + at, 100, 1, 5, 3))
        t.cell(300 + at, 100, 0x1111 * (at + 1))


@CHAPTER.test('The palette is at X 16 times bits 0 to 5 of the attribute, and Y bits 6 to 14.',
              section='Clut Attribute')
def place_of_the_palette(t: Draft) -> None:
    t.open()
    t.given(512, 0, 1, [0x0001])
    t.before(draw_mode(texture_page(512, 0, 0)))
    for at, (x, y) in enumerate([(0, 100), (16, 101), (256, 102), (496, 511), (1008, 256)]):
        t.given(x + 1, y, 1, [0x1111 * (at + 1)])
        t.packet(0x01000000, sprite(300 + at, 8, 1, palette=clut(x, y)))
        t.cell(300 + at, 8, 0x1111 * (at + 1))


@CHAPTER.test('Bit 15 of the palette attribute means nothing.', OWN, section='Clut Attribute')
def palette_bit_15(t: Draft) -> None:
    t.open()
    t.given(512, 0, 1, [0x0001])
    t.given(17, 101, 1, [0x1234])
    t.before(draw_mode(texture_page(512, 0, 0)))
    t.packet(sprite(300, 8, 1, palette=0x8000 | clut(16, 101)))
    t.cell(300, 8, 0x1234)


@CHAPTER.test('A page at the right edge continues at X 0 of the same row.', OWN)
def page_wraps(t: Draft) -> None:
    t.open()
    t.given(1023, 5, 1, [0x1111])
    t.given(0, 5, 1, [0x2222])
    t.before(draw_mode(texture_page(960, 0, 2)))
    t.packet(sprite(300, 8, 2, 63, 5))
    t.row(300, 8, [0x1111, 0x2222])


@CHAPTER.test('A page of 8 bits at the right edge continues at X 0 of the same row.', OWN)
def page_of_eight_bits_wraps(t: Draft) -> None:
    t.open()
    t.given(0, 480, 16, PALETTE)
    t.given(1023, 5, 1, [0x0201])
    t.given(0, 5, 1, [0x0403])
    t.before(draw_mode(texture_page(960, 0, 1)))
    t.packet(sprite(300, 8, 4, 126, 5, clut(0, 480)))
    t.row(300, 8, PALETTE[1:5])


@CHAPTER.test('A palette at the right edge continues at X 0 of the same row.', OWN)
def palette_wraps(t: Draft) -> None:
    t.open()
    t.given(1008, 400, 16, [0x1000 + at for at in range(16)])
    t.given(0, 400, 2, [0x2222, 0x3333])
    t.given(512, 0, 1, [0x100F])
    t.before(draw_mode(texture_page(512, 0, 1)))
    t.packet(sprite(300, 8, 2, palette=clut(1008, 400)))
    t.row(300, 8, [0x100F, 0x2222])


@CHAPTER.test('The last row and column of a page: U and V 255.')
def corner_of_the_page(t: Draft) -> None:
    t.open()
    t.given(767, 511, 1, [0x1234])
    t.before(draw_mode(texture_page(512, 256, 2)))
    t.packet(sprite(8, 8, 1, 255, 255))
    t.cell(8, 8, 0x1234)


@CHAPTER.test('A texture that is drawn into itself is seen as it is then: the first texel is smeared.', OWN)
def drawn_into_itself(t: Draft) -> None:
    t.open()
    t.given(512, 0, 4, [0x1111, 0x2222, 0x3333, 0x4444])
    t.before(draw_mode(texture_page(512, 0, 2)))
    t.packet(sprite(513, 0, 3))
    t.row(512, 0, [0x1111] * 4)


@CHAPTER.test('A palette that is loaded anew is used at once, without GP0(01h).', OWN,
              section='Texture Palettes - CLUT')
def no_palette_cache(t: Draft) -> None:
    t.open()
    t.given(512, 0, 1, [0x0001])
    t.before(load(0, 480, 2, 1, [0x0000, 0x1111]), draw_mode(texture_page(512, 0, 0)))
    t.packet(sprite(8, 8, 1, palette=clut(0, 480)))
    t.given(0, 480, 2, [0x0000, 0x2222])
    t.packet(sprite(9, 8, 1, palette=clut(0, 480)))
    t.row(8, 8, [0x1111, 0x2222])


@CHAPTER.test('A palette that is loaded anew is used after GP0(01h).', section='GP0(01h) Clear Cache')
def palette_after_clear_cache(t: Draft) -> None:
    t.open()
    t.given(512, 0, 1, [0x0001])
    t.before(load(0, 480, 2, 1, [0x0000, 0x1111]), draw_mode(texture_page(512, 0, 0)))
    t.packet(sprite(8, 8, 1, palette=clut(0, 480)))
    t.given(0, 480, 2, [0x0000, 0x2222])
    t.packet(0x01000000, sprite(9, 8, 1, palette=clut(0, 480)))
    t.row(8, 8, [0x1111, 0x2222])
