"""Dither: GP0(E1h) bit 9."""
from __future__ import annotations

from typing import Any

from psxgpu.capture import draw_mode, drawing_offset, line, polygon, texture_page
from psxgpu.conformance.suite import FORMULA, OWN, Chapter, Draft

CHAPTER = Chapter('dither', '24bit RGB to 15bit RGB Dithering (enabled in Texpage attribute)')
TABLE = ((-4, 0, -3, 1), (2, -2, 3, -1), (-3, 1, -4, 0), (3, -1, 2, -2))
PAGE = texture_page(512, 0, 2)
GREY = 0x47                 # seven above a multiple of 8: where the table is positive, the next step


def dithered(value: int, x: int, y: int) -> int:
    """A channel of 8 bits as 5 bits."""
    return min(max(value + TABLE[y % 4][x % 4], 0), 255) // 8


def grey(t: Draft, x: int, y: int, width: int, height: int, value: int) -> None:
    for down in range(height):
        for right in range(width):
            t.cell(x + right, y + down, dithered(value, x + right, y + down) * 0x421)


def box(x: int, y: int, width: int, height: int, color: int | list[int], **words: Any) -> list[int]:
    corners = [(x, y), (x + width, y), (x, y + height), (x + width, y + height)]
    return polygon(corners, color, **words)


@CHAPTER.test('A shaded polygon adds the table of 4 by 4 to each channel before the division by 8.', worked=FORMULA)
def table(t: Draft) -> None:
    t.open()
    t.before(draw_mode(dither=True))
    t.packet(box(0, 0, 8, 8, [GREY * 0x10101] * 4))
    grey(t, 0, 0, 8, 8, GREY)


@CHAPTER.test('Each of the eight remainders of a channel is dithered to its own pattern.', worked=FORMULA)
def remainders(t: Draft) -> None:
    t.open()
    t.before(draw_mode(dither=True))
    for low in range(8):
        t.packet(box(4 * low, 0, 4, 4, [0x010101 * (0x80 + low)] * 4))
        grey(t, 4 * low, 0, 4, 4, 0x80 + low)


@CHAPTER.test('The sum is brought into 0 to 255: black stays black, and white stays white.', worked=FORMULA)
def saturates(t: Draft) -> None:
    t.open()
    t.before(draw_mode(dither=True))
    t.packet(box(0, 0, 4, 4, [0x010101] * 4), box(4, 0, 4, 4, [0xFEFEFE] * 4))
    grey(t, 0, 0, 4, 4, 0x01)
    grey(t, 4, 0, 4, 4, 0xFE)


@CHAPTER.test('The place in the table is that in video memory, after the drawing offset.', OWN, FORMULA)
def place_after_the_offset(t: Draft) -> None:
    t.open()
    t.before(draw_mode(dither=True), drawing_offset(3, 2))
    t.packet(box(0, 0, 4, 4, [GREY * 0x10101] * 4))
    grey(t, 3, 2, 4, 4, GREY)


@CHAPTER.test('Without bit 9 a shaded polygon is not dithered.')
def off(t: Draft) -> None:
    t.open()
    t.before(draw_mode(dither=True), draw_mode())
    t.packet(box(0, 0, 4, 4, [GREY * 0x10101] * 4))
    t.box(0, 0, 4, 4, 0x2108)


@CHAPTER.test('A flat polygon without texture is not dithered.')
def flat_polygon(t: Draft) -> None:
    t.open()
    t.before(draw_mode(dither=True))
    t.packet(box(0, 0, 4, 4, GREY * 0x10101))
    t.box(0, 0, 4, 4, 0x2108)


@CHAPTER.test('A textured polygon of one colour is dithered after the modulation.', OWN, FORMULA)
def textured_polygon(t: Draft) -> None:
    t.open()
    t.given(512, 0, 1, [0x2108])
    t.before(draw_mode(dither=True))
    t.packet(box(0, 0, 4, 4, 0x8E8E8E, texture=[(0, 0)] * 4, page=PAGE))
    grey(t, 0, 0, 4, 4, 8 * 8 * 0x8E // 128)


@CHAPTER.test('A semi-transparent textured polygon is dithered, too.', OWN, FORMULA)
def semi_transparent_polygon(t: Draft) -> None:
    t.open()
    t.given(512, 0, 1, [0x2108])
    t.before(draw_mode(dither=True))
    t.packet(box(0, 0, 4, 4, 0x8E8E8E, texture=[(0, 0)] * 4, page=PAGE, semi=True))
    grey(t, 0, 0, 4, 4, 8 * 8 * 0x8E // 128)


@CHAPTER.test('A raw texture is not dithered.')
def raw_texture(t: Draft) -> None:
    t.open()
    t.given(512, 0, 1, [0x2108])
    t.before(draw_mode(dither=True))
    t.packet(box(0, 0, 4, 4, 0x8E8E8E, texture=[(0, 0)] * 4, page=PAGE, raw=True))
    t.box(0, 0, 4, 4, 0x2108)


@CHAPTER.test('A line of one colour is dithered.', worked=FORMULA)
def flat_line(t: Draft) -> None:
    t.open()
    t.before(draw_mode(dither=True))
    for y in range(4):
        t.packet(line([(0, y), (7, y)], GREY * 0x10101))
    grey(t, 0, 0, 8, 4, GREY)


@CHAPTER.test('A shaded line is dithered.', worked=FORMULA)
def shaded_line(t: Draft) -> None:
    t.open()
    t.before(draw_mode(dither=True))
    t.packet(line([(0, 1), (7, 1)], [GREY * 0x10101] * 2))
    grey(t, 0, 1, 8, 1, GREY)


@CHAPTER.test('A cell is dithered before it is blended.', OWN, FORMULA)
def before_blending(t: Draft) -> None:
    t.open()
    t.given(0, 0, 4, [0x2108] * 16)
    t.before(draw_mode(texture_page(0, 0, 0, 1), dither=True))
    t.packet(box(0, 0, 4, 4, [GREY * 0x10101] * 4, semi=True))
    for y in range(4):
        for x in range(4):
            t.cell(x, y, (8 + dithered(GREY, x, y)) * 0x421)
