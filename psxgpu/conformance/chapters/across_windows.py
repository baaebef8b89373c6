"""Windows, flips and wraps of U and V in each kind of packet with a texture, in each depth."""
from __future__ import annotations

from typing import Callable, Tuple

from psxgpu.capture import texture_window
from psxgpu.conformance.across import (CLUT, DEEP, ENTRIES, PAGE_X, across, corners, expect, has_many_cells,
                                       is_textured,
                                       mode, page_of, palette, texel_of, texels, textured, varied)
from psxgpu.conformance.chapters import rectangles, windows
from psxgpu.conformance.packets import POLYGONS, RECTANGLES, Drawer
from psxgpu.conformance.suite import PSX_SPX, Draft

SOLID = (POLYGONS, RECTANGLES)
Corner = Callable[[Drawer], Tuple[int, int]]


def loaded(t: Draft, u: int, v: int) -> None:
    """Loads the texels from (u, v) on in each depth, at most 16 by 16 of them."""
    palette(t, ENTRIES)
    for depth in (0, 1, 2):
        texels(t, depth, u, v, min(16, 256 - u), min(16, 256 - v), varied(depth), PAGE_X + 128 * depth)


def shows(t: Draft, drawer: Drawer, place: Tuple[int, int], corner: Tuple[int, int],
          texel: Callable[[int, int], Tuple[int, int]], **bits: bool) -> None:
    """Draws a box in each depth. `texel`: the U and V of a cell."""
    for depth in (0, 1, 2):
        page, down = page_of(depth, 0, PAGE_X + 128 * depth), place[1] + DEEP * depth
        mode(t, page, **bits)
        textured(t, drawer, (place[0], down), corner, page, CLUT)
        expect(t, drawer, place[0], down, lambda i, j: texel_of(depth, varied(depth)(*texel(i, j))))


def window(name: str, says: str, rule: str, fields: Tuple[int, int, int, int], corner: Corner) -> None:
    """A test of a window. The masks have all bits: only the lowest three bits of U or V are the packet's."""
    mask_u, mask_v, offset_u, offset_v = fields

    def before(t: Draft) -> None:
        loaded(t, 8 * offset_u, 8 * offset_v)
        t.before(texture_window(*fields))

    @across(windows.CHAPTER, name, says, (rule,), SOLID, only=is_textured, before=before)
    def one(t: Draft, drawer: Drawer, x: int, y: int) -> None:
        u, v = corner(drawer)
        shows(t, drawer, (x, y), (u, v), lambda i, j: (windows.windowed(u + i, mask_u, offset_u),
                                                       windows.windowed(v + j, mask_v, offset_v)))


window('mask-of-u', 'In {} the window masks each of the upper five bits of U.', 'window: mask of U', (31, 0, 0, 0),
       lambda drawer: (corners(drawer)[0], 0))
window('mask-of-v', 'In {} the window masks each of the upper five bits of V.', 'window: mask of V', (0, 31, 0, 0),
       lambda drawer: (0, corners(drawer)[1]))
window('offset-of-u', 'In {} the window\'s offset gives the upper five bits of U.', 'window: offset of U',
       (31, 0, 31, 0), lambda drawer: (0, 0))
window('offset-of-v', 'In {} the window\'s offset gives the upper five bits of V.', 'window: offset of V',
       (0, 31, 0, 31), lambda drawer: (0, 0))


def flips(name: str, rule: str, is_x: bool, is_y: bool) -> None:
    """Two tests of the flips: rectangles obey them, from an odd U, and polygons do not."""
    def one(t: Draft, drawer: Drawer, x: int, y: int) -> None:
        u, v = (15 if is_x else 0, 15 if is_y else 0) if drawer.family == RECTANGLES else (0, 0)
        shows(t, drawer, (x, y), (u, v), lambda i, j: (abs(u - i), abs(v - j)), flip_x=is_x, flip_y=is_y)
    for family, says in ((POLYGONS, 'In {} the texture is not flipped by GP0(E1h) %s.'), (RECTANGLES, 'In {} the texture is flipped by GP0(E1h) %s.')):
        bits = ' and '.join(['bit 12'] * is_x + ['bit 13'] * is_y)
        across(rectangles.CHAPTER, name, says % bits,
               (rule,), (family,), PSX_SPX, has_many_cells, 'GP0(E1h) Draw Mode setting',
               lambda t: loaded(t, 0, 0))(one)


flips('flip-x', 'flip in X', True, False)
flips('flip-y', 'flip in Y', False, True)
flips('both-flips', 'both flips', True, True)


def wraps(name: str, letter: str, corner: Tuple[int, int]) -> None:
    """A test of a rectangle whose U or V goes from 255 to 0."""
    def before(t: Draft) -> None:
        palette(t, ENTRIES)
        u, v = corner
        for depth in (0, 1, 2):
            x = PAGE_X + 128 * depth
            texels(t, depth, 0, 0, 16, 16, varied(depth), x)
            texels(t, depth, u, v, 4 if u else 16, 4 if v else 16, varied(depth), x)

    @across(rectangles.CHAPTER, name, 'In {} %s continues from 255 to 0.' % letter, (letter + ' from 255 to 0',),
            (RECTANGLES,), only=has_many_cells, before=before)
    def one(t: Draft, drawer: Drawer, x: int, y: int) -> None:
        shows(t, drawer, (x, y), corner, lambda i, j: (corner[0] + i & 255, corner[1] + j & 255))


wraps('u-wraps', 'U', (252, 0))
wraps('v-wraps', 'V', (0, 252))
