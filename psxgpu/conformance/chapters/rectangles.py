"""Rectangles: GP0(60h) to GP0(7Fh)."""
from __future__ import annotations

from psxgpu.capture import clut, draw_mode, rectangle, texture_page
from psxgpu.conformance.packets import RECTANGLES, Kind, marks
from psxgpu.conformance.suite import HAND, OWN, PSX_SPX, Chapter, Draft

CHAPTER = Chapter('rectangles', 'GPU Render Rectangle Commands')
RED, CELL = 0x0000FF, 0x001F
PAGE = texture_page(512, 0, 2)
RAW_RECTANGLE = Kind(RECTANGLES, 'given size', 'raw')
TEXELS = [0x1111, 0x2222, 0x3333, 0x4444, 0x5555, 0x6666, 0x7777, 0x0888]


def sized(name: str, says: str, words: list[int], box: tuple[int, int, int, int] | None,
          decides: str = PSX_SPX) -> None:
    def write(t: Draft) -> None:
        t.open()
        t.packet(words)
        if box:
            t.box(*box, CELL)
    CHAPTER.add(name, says, decides, HAND, write)


sized('size-1', '68h draws one cell.', [0x68000000 | RED, 5 << 16 | 3], (3, 5, 1, 1))
sized('size-8', '70h draws 8 by 8 cells.', [0x70000000 | RED, 5 << 16 | 3], (3, 5, 8, 8))
sized('size-16', '78h draws 16 by 16 cells.', [0x78000000 | RED, 5 << 16 | 3], (3, 5, 16, 16))
sized('size-given', '60h draws as many cells as its last word says, both edges inside.',
      rectangle(RED, 3, 5, 7, 2), (3, 5, 7, 2))
sized('size-0', 'A rectangle of width 0 or height 0 draws nothing.',
      rectangle(RED, 3, 5, 0, 2) + rectangle(RED, 3, 5, 2, 0), None)
sized('size-bits', 'The width has ten bits and the height nine.',
      [0x60000000 | RED, 5 << 16 | 3, 0x0202 << 16 | 0x0403], (3, 5, 3, 2), OWN)
sized('wider-than-the-size-rule', 'The size rule of polygons and lines does not hold for rectangles.',
      rectangle(RED, 0, 5, 1023, 1), (0, 5, 1023, 1))
sized('negative-corner', 'X and Y have eleven bits with a sign: what is left and above is cut.',
      [0x60000000 | RED, 0x7FE << 16 | 0x7FD, 4 << 16 | 5], (0, 0, 2, 2))
sized('corner-bits', 'The bits of a corner above the eleventh are dropped.',
      [0x68000000 | RED, 0xF805 << 16 | 0xF803], (3, 5, 1, 1))


@CHAPTER.test('The size codes with a texture: 6Ch, 74h and 7Ch have no size word.')
def textured_lengths(t: Draft) -> None:
    t.open()
    t.given(512, 0, 1, [0x1234])
    t.before(draw_mode(PAGE))
    t.packet(0x6D000000, 3, 0, 0x6D000000, 5 << 16 | 3, 0)
    t.cell(3, 0, 0x1234)
    t.cell(3, 5, 0x1234)


def textured(t: Draft, u: int, width: int, **mode: bool) -> None:
    t.open()
    t.given(512, 0, 8, TEXELS)
    t.before(draw_mode(PAGE, **mode))
    t.packet(rectangle(0, 8, 8, width, 1, texture=(u, 0), raw=True))


def sized_texture(name: str, opcode: int, side: int) -> None:
    """A textured rectangle of a size code: its cells are all different. The colour is 80h, which leaves the texels."""
    def write(t: Draft) -> None:
        t.open()
        texels = [0x1000 + at for at in range(side * side)]
        t.given(512, 0, side, texels)
        t.before(draw_mode(PAGE))
        t.packet(opcode << 24 | 0x808080, 8 << 16 | 8, 0)
        for down in range(side):
            t.row(8, 8 + down, texels[side * down:side * down + side])
    CHAPTER.add(name, '%02Xh draws %d by %d texels.' % (opcode, side, side), PSX_SPX, HAND, write)


sized_texture('textured-8', 0x74, 8)
sized_texture('textured-16', 0x7C, 16)


@CHAPTER.test('U and V go up by one a cell from the top left corner.')
def texture_one_to_one(t: Draft) -> None:
    t.open()
    t.given(512, 0, 4, TEXELS)
    t.before(draw_mode(PAGE))
    t.packet(rectangle(0, 8, 8, 3, 2, texture=(1, 0), raw=True))
    t.row(8, 8, TEXELS[1:4])
    t.row(8, 9, TEXELS[5:8])


@CHAPTER.test('U continues from 255 to 0.')
def u_wraps(t: Draft) -> None:
    t.open()
    t.given(512, 0, 2, TEXELS[:2])
    t.given(766, 0, 2, TEXELS[2:4])
    t.before(draw_mode(PAGE))
    t.packet(rectangle(0, 8, 8, 4, 1, texture=(254, 0), raw=True))
    t.row(8, 8, [TEXELS[2], TEXELS[3], TEXELS[0], TEXELS[1]])


@CHAPTER.test('V continues from 255 to 0.')
def v_wraps(t: Draft) -> None:
    t.open()
    t.given(512, 0, 1, TEXELS[:2])
    t.given(512, 254, 1, TEXELS[2:4])
    t.before(draw_mode(PAGE))
    t.packet(rectangle(0, 8, 8, 1, 4, texture=(0, 254), raw=True))
    for down, value in enumerate([TEXELS[2], TEXELS[3], TEXELS[0], TEXELS[1]]):
        t.cell(8, 8 + down, value)


@CHAPTER.test('GP0(E1h) bit 12: U goes down by one a cell, from an odd U.', section='GP0(E1h) Draw Mode setting')
def flip_x_odd_u(t: Draft) -> None:
    textured(t, 7, 4, flip_x=True)
    t.row(8, 8, [TEXELS[7], TEXELS[6], TEXELS[5], TEXELS[4]])


@CHAPTER.test('With an even U the first texel of a flipped rectangle is U itself.', OWN,
              section='GP0(E1h) Draw Mode setting')
def flip_x_even_u(t: Draft) -> None:
    textured(t, 6, 4, flip_x=True)
    t.row(8, 8, [TEXELS[6], TEXELS[5], TEXELS[4], TEXELS[3]])


@CHAPTER.test('GP0(E1h) bit 13: V goes down by one a row.', section='GP0(E1h) Draw Mode setting')
def flip_y(t: Draft) -> None:
    t.open()
    t.given(512, 0, 1, TEXELS[:4])
    t.before(draw_mode(PAGE, flip_y=True))
    t.packet(rectangle(0, 8, 8, 1, 4, texture=(0, 3), raw=True))
    for down in range(4):
        t.cell(8, 8 + down, TEXELS[3 - down])


@CHAPTER.test('A flipped rectangle of odd width has its last column, of 4-bit texels, too.',
              section='GP0(E1h) Draw Mode setting', marks=marks(('flip in X',), RAW_RECTANGLE))
def flip_x_odd_width(t: Draft) -> None:
    t.open()
    t.given(512, 0, 2, [0x3210, 0x7654])
    t.given(0, 480, 8, TEXELS)
    t.before(draw_mode(texture_page(512, 0, 0), flip_x=True))
    for y, width in ((8, 1), (10, 3), (12, 5)):
        t.packet(rectangle(0, 8, y, width, 1, texture=(7, 0), palette=clut(0, 480), raw=True))
        t.row(8, y, TEXELS[:7 - width:-1])


@CHAPTER.test('A rectangle that is wider than 16 is flipped in Y as a narrow one.',
              section='GP0(E1h) Draw Mode setting', marks=marks(('flip in Y',), RAW_RECTANGLE))
def flip_y_wide(t: Draft) -> None:
    t.open()
    for v in range(4):
        t.given(512, v, 40, [0x0421 * (v + 1)] * 40)
    t.before(draw_mode(PAGE, flip_y=True))
    for y, width in ((8, 16), (16, 17), (24, 40)):
        t.packet(rectangle(0, 8, y, width, 4, texture=(0, 3), raw=True))
        for down in range(4):
            t.row(8, y + down, [0x0421 * (4 - down)] * width)


@CHAPTER.test('A flipped U continues from 0 to 255.', OWN, section='GP0(E1h) Draw Mode setting')
def flip_x_wraps(t: Draft) -> None:
    t.open()
    t.given(512, 0, 2, TEXELS[:2])
    t.given(766, 0, 2, TEXELS[2:4])
    t.before(draw_mode(PAGE, flip_x=True))
    t.packet(rectangle(0, 8, 8, 4, 1, texture=(1, 0), raw=True))
    t.row(8, 8, [TEXELS[1], TEXELS[0], TEXELS[3], TEXELS[2]])


@CHAPTER.test('A rectangle that the drawing area cuts at the left keeps its texels: they count from its own corner.')
def cut_at_the_left(t: Draft) -> None:
    t.open(10, 0, 1023, 511)
    t.given(512, 0, 8, TEXELS)
    t.before(draw_mode(PAGE))
    t.packet(rectangle(0, 8, 8, 4, 1, texture=(0, 0), raw=True))
    t.row(10, 8, TEXELS[2:4])


@CHAPTER.test('A flat rectangle keeps its colour under dither.', section='24bit RGB to 15bit RGB Dithering')
def not_dithered(t: Draft) -> None:
    t.open()
    t.before(draw_mode(dither=True))
    t.packet(rectangle(0x474747, 0, 0, 4, 4))
    t.box(0, 0, 4, 4, 0x2108)


@CHAPTER.test('A textured rectangle that is not raw keeps its colour under dither.',
              section='24bit RGB to 15bit RGB Dithering')
def textured_not_dithered(t: Draft) -> None:
    t.open()
    t.given(512, 0, 4, [0x2108] * 16)
    t.before(draw_mode(PAGE, dither=True))
    t.packet(rectangle(0x8E8E8E, 0, 0, 4, 4, texture=(0, 0)))
    t.box(0, 0, 4, 4, 0x2108)
