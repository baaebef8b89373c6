"""Rules of pixels in each kind of packet: colour, dither, blending, mask setting, modulation."""
from __future__ import annotations

from typing import Tuple

from psxgpu.capture import drawing_area, drawing_offset, mask_setting
from psxgpu.conformance.across import (CLUT, DEEP, DEPTHS, NEUTRAL, PAGE_X, Value, across, expect, is_textured, mode,
                                       page_of, palette, texels, textured, under)
from psxgpu.conformance.chapters import blending, dither, gouraud, mask, modulation
from psxgpu.conformance.packets import LINES, POLYGONS, RECTANGLES, Drawer
from psxgpu.conformance.suite import OWN, Draft, cell, rgb

COLOR = 0x5A9B3C
GREY = 0x47                     # see the chapter dither
SOLID = (POLYGONS, RECTANGLES)


def has_no_texture(drawer: Drawer) -> bool:
    """Accepts packets without a texture."""
    return not drawer.is_textured


def plain(t: Draft, value: int) -> None:
    """Loads 16 by 16 texels of one value."""
    texels(t, 2, 0, 0, 16, 16, lambda u, v: value)


@across(gouraud.CHAPTER, 'colors',
        'In {} without texture the colour is divided by 8, and bit 15 of the cell is cleared.',
        ('colour', 'bit 15 is cleared'), only=has_no_texture)
def colors(t: Draft, drawer: Drawer, x: int, y: int) -> None:
    under(t, drawer, x, y, lambda i, j: 0xFFFF)
    t.packet(drawer.words(x, y, COLOR))
    expect(t, drawer, x, y, lambda i, j: rgb(COLOR))


def step(at: int) -> int:
    """A channel of 8 bits whose upper five are a number, in the middle between two."""
    return 4 + 8 * at


@across(gouraud.CHAPTER, 'steps', 'In {} that is shaded a channel goes up by one step a cell; a raw texture has none.',
        ('shading',), (POLYGONS,), only=lambda drawer: drawer.is_shaded, before=lambda t: plain(t, cell(16, 16, 16)))
def steps_of_polygons(t: Draft, drawer: Drawer, x: int, y: int) -> None:
    places = [(0, 0), (8, 0), (0, 8), (8, 8)]
    t.packet(drawer.polygons([(x + i, y + j) for i, j in places], [step(i) | step(j) << 8 for i, j in places],
                             places, page_of(2)))
    expect(t, drawer, x, y, lambda i, j: cell(16, 16, 16) if drawer.is_raw else cell(i, j, 0))


@across(gouraud.CHAPTER, 'steps', 'In {} that is shaded a channel goes up by one step a cell.', ('shading',), (LINES,),
        only=lambda drawer: drawer.is_shaded)
def steps_of_lines(t: Draft, drawer: Drawer, x: int, y: int) -> None:
    points = (0, 8) if len(drawer.kinds) == 1 else (0, 4, 8)
    for j in range(drawer.height):
        words = drawer.lines(x, y + j, 0, False)
        words[0] |= step(0) | step(j) << 8
        for number, at in enumerate(points[1:], 1):
            words[2 * number] = step(at) | step(j) << 8
        t.packet(words)
    expect(t, drawer, x, y, lambda i, j: cell(i, j, 0))


def dithers(t: Draft, drawer: Drawer, x: int, y: int, color: int = 0x80, left: int = 0, top: int = 0) -> None:
    """Draws a box at vertices that are moved, and expects the table where it holds. `color`: of each channel under a
    texel 8; 80h leaves 64 before the dither, by any rule of modulation."""
    mode(t, page_of(2), dither=True)
    grey = 8 * 8 * color // 128 if drawer.is_textured else GREY
    t.packet(drawer.words(x - left, y - top, (color if drawer.is_textured else GREY) * 0x10101, page=page_of(2)))
    expect(t, drawer, x, y, lambda i, j: 0x421 * (
        dither.dithered(grey, x + i, y + j) if drawer.is_dithered else 8))


@across(dither.CHAPTER, 'table', 'Where it holds, the table is added in {}, and nowhere else.', ('dither',),
        before=lambda t: plain(t, 0x2108))
def dither_table(t: Draft, drawer: Drawer, x: int, y: int) -> None:
    dithers(t, drawer, x, y)


def moved(t: Draft) -> None:
    """A drawing area and an offset that are no multiples of four."""
    plain(t, 0x2108)
    t.before(drawing_area(3, 1, 1023, 511), drawing_offset(5, 6))


@across(dither.CHAPTER, 'place', 'In {} the table begins at (0, 0), whatever the drawing area and the offset are.',
        ('place in the dither table',), (POLYGONS, LINES), OWN, only=lambda drawer: drawer.is_dithered, before=moved)
def dither_place(t: Draft, drawer: Drawer, x: int, y: int) -> None:
    dithers(t, drawer, x + 6, y + 7, 0x8E, 5, 6)


# Blending: values for which the sum is even and F a multiple of 4.

FRONT = 16, 8, 4
BACKS = (8, 12, 20), (20, 28, 10)


def blended(number: int, backs: Tuple[int, int, int]) -> int:
    """Returns FRONT on a background by a mode."""
    return cell(*[blending.MODES[number](back, front) for back, front in zip(backs, FRONT)])


def blends(number: int) -> None:
    """A test of a mode, in which the left and the right half of a box have another background."""
    @across(blending.CHAPTER, blending.NAMES[number], 'Mode %d is %s in {}.' % (number, blending.SAYS[number]),
            (blending.SAYS[number].split(',')[0],), before=lambda t: plain(t, cell(*FRONT, mask=1)))
    def blend(t: Draft, drawer: Drawer, x: int, y: int) -> None:
        under(t, drawer, x, y, lambda i, j: cell(*BACKS[i >= 4]))
        mode(t, page_of(2, number))
        t.packet(drawer.words(x, y, NEUTRAL if drawer.is_textured else 0x204080, page=page_of(2, number), semi=True))
        expect(t, drawer, x, y, lambda i, j: blended(number, BACKS[i >= 4]) | drawer.is_textured << 15, is_twice=True)


for _number in range(4):
    blends(_number)


@across(blending.CHAPTER, 'opaque', 'Without bit 25, {} covers what is there.', ('opaque',),
        before=lambda t: plain(t, cell(*FRONT, mask=1)))
def opaque(t: Draft, drawer: Drawer, x: int, y: int) -> None:
    under(t, drawer, x, y, lambda i, j: cell(*BACKS[0]))
    mode(t, page_of(2, 1))
    t.packet(drawer.words(x, y, NEUTRAL if drawer.is_textured else 0x204080, page=page_of(2, 1)))
    expect(t, drawer, x, y, lambda i, j: cell(*FRONT, mask=int(drawer.is_textured)))


def striped(depth: int) -> Value:
    """Returns texels, or indexes of them, that have bit 15 in every second column."""
    return lambda u, v: cell(*FRONT, mask=u & 1) if depth == 2 else 1 + (u & 1)


def with_and_without(t: Draft) -> None:
    """Loads such texels in each depth."""
    palette(t, [0, cell(*FRONT), cell(*FRONT, mask=1), 0])
    for depth in (0, 1, 2):
        texels(t, depth, 0, 0, 16, 16, striped(depth), PAGE_X + 64 * depth)


@across(blending.CHAPTER, 'texels', 'In {} with texture a texel is blended where its bit 15 is 1, in each depth.',
        ['bit 15 chooses blending, ' + depth for depth in DEPTHS], SOLID, only=is_textured, before=with_and_without)
def blended_texels(t: Draft, drawer: Drawer, x: int, y: int) -> None:
    for depth in (0, 1, 2):
        down, page = y + DEEP * depth, page_of(depth, 1, PAGE_X + 64 * depth)
        under(t, drawer, x, down, lambda i, j: cell(*BACKS[0]))
        mode(t, page)
        textured(t, drawer, (x, down), (0, 0), page, CLUT, semi=True)
        expect(t, drawer, x, down, lambda i, j: 0x8000 | blended(1, BACKS[0]) if i & 1 else cell(*FRONT), True)


@across(mask.CHAPTER, 'bit-15-forced', 'Bit 0: {} sets bit 15 of what it draws.', ('mask set',),
        before=lambda t: plain(t, cell(*FRONT)))
def forced(t: Draft, drawer: Drawer, x: int, y: int) -> None:
    t.before(mask_setting(force=True))
    mode(t, page_of(2))
    t.packet(drawer.words(x, y, NEUTRAL if drawer.is_textured else 0x204080, page=page_of(2)))
    expect(t, drawer, x, y, lambda i, j: cell(*FRONT, mask=1))


@across(mask.CHAPTER, 'bit-15-kept', 'Bit 1: {} leaves cells with bit 15.', ('mask kept',),
        before=lambda t: plain(t, cell(*FRONT)))
def kept(t: Draft, drawer: Drawer, x: int, y: int) -> None:
    t.before(mask_setting())
    under(t, drawer, x, y, lambda i, j: (i + j & 1) << 15 | 0x0421)
    t.before(mask_setting(keep=True))
    mode(t, page_of(2))
    t.packet(drawer.words(x, y, NEUTRAL if drawer.is_textured else 0x204080, page=page_of(2)))
    expect(t, drawer, x, y, lambda i, j: 0x8421 if i + j & 1 else cell(*FRONT))


# Modulation: products that are the same before and after any rounding.

def shines(t: Draft, drawer: Drawer, x: int, y: int, color: int, texel: int, result: int) -> None:
    mode(t, page_of(2))
    t.packet(drawer.words(x, y, color, page=page_of(2)))
    expect(t, drawer, x, y, lambda i, j: texel if drawer.is_raw else result)


@across(modulation.CHAPTER, 'products', 'A texel 16 under 80h, 60h and 40h is 16, 12 and 8 in {}; a raw one stays.',
        ('modulation or raw',), SOLID, only=is_textured, before=lambda t: plain(t, cell(16, 16, 16)))
def products(t: Draft, drawer: Drawer, x: int, y: int) -> None:
    shines(t, drawer, x, y, 0x406080, cell(16, 16, 16), cell(16, 12, 8))


@across(modulation.CHAPTER, 'limit', 'A product above 31 is 31 in {}; a raw texel stays.', ('limit of modulation',),
        SOLID,
        only=is_textured, before=lambda t: plain(t, cell(16, 20, 31)))
def limit(t: Draft, drawer: Drawer, x: int, y: int) -> None:
    shines(t, drawer, x, y, 0xFFFFFF, cell(16, 20, 31), cell(31, 31, 31))
