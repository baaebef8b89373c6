"""The size rule in each kind of packet that has it: 1023 by 511 is drawn, 1024 or 512 is not."""
from __future__ import annotations

from typing import List, Tuple

from psxgpu.capture import drawing_area, line, texture_window
from psxgpu.conformance.across import NEUTRAL, across, expect, mode, page_of, texels
from psxgpu.conformance.chapters import lines, polygons, rectangles
from psxgpu.conformance.packets import LINES, POLYGONS, RECTANGLES, Drawer
from psxgpu.conformance.suite import OWN, Draft, rgb

COLOR = 0x5A9B3C
CELL = rgb(COLOR)
RULES = 'size rule in X', 'size rule in Y'
LAST = 1023, 511                # the greatest X and Y, and the greatest size
Point = Tuple[int, int]


def turned(along: int, across_it: int, is_y: bool) -> Point:
    """Returns a place: how far it is along the long side, and across it."""
    return (across_it, along) if is_y else (along, across_it)


def loaded(t: Draft) -> None:
    """Loads texels that are all alike."""
    texels(t, 2, 0, 0, 8, 8, lambda u, v: CELL)
    mode(t, page_of(2))


def has_a_size_word(drawer: Drawer) -> bool:
    """Accepts rectangles of the size code 0."""
    return not drawer.opcode & 0x18


def color(drawer: Drawer) -> int:
    return NEUTRAL if drawer.is_textured else COLOR


def ends(is_y: bool) -> List[List[int]]:
    """Returns the words of a drawing area at each end of the long side. The cell at its inner edge is not judged."""
    return [drawing_area(0, 0, *turned(8, LAST[not is_y], is_y)),
            drawing_area(*turned(LAST[is_y] - 9, 0, is_y), *LAST)]


def judged(t: Draft, is_y: bool, at: int, height: int, is_drawn: bool) -> None:
    """Expects eight cells at each end of the long side. The last one is the end of a line, and outside of a polygon."""
    last = LAST[is_y]
    for along in (*range(8), *range(last - 8, last)) if is_drawn else ():
        for down in range(height):
            t.cell(*turned(along, at + down, is_y), CELL)
    for along in (8, last - 9, last):
        t.ignore(*turned(along, at, is_y), *turned(1, height, is_y))


def texts(is_y: bool, what: str) -> Tuple[str, str]:
    """Returns the name of a test, and what it says."""
    letter, most = 'XY'[is_y], LAST[is_y]
    return 'size-in-' + letter.lower(), 'In {} %s %d apart in %s are drawn, and %s %d apart are not.' % (
        what, most, letter, what, most + 1)


def of_polygons(is_y: bool) -> None:
    """A test of polygons of the greatest size, and one larger."""
    @across(polygons.CHAPTER, *texts(is_y, 'vertices'), (RULES[is_y],), (POLYGONS,), before=loaded)
    def one(t: Draft, drawer: Drawer, x: int, y: int) -> None:
        at = 20 + 6 * y + x
        for area in ends(is_y):
            t.before(area)
            for start, side in ((0, at), (-1, at + 10)):
                places = [turned(along, across_it, is_y)
                          for across_it in (side, side + 8) for along in (start, LAST[is_y])]
                places = [places[at] for at in ((0, 2, 1, 3) if is_y else (0, 1, 2, 3))]
                t.packet(drawer.polygons(places, [color(drawer)] * 4, [(0, 0)] * 4, page_of(2)))
        judged(t, is_y, at, 8, True)
        judged(t, is_y, at + 10, 8, False)


def chains(drawer: Drawer, start: int, last: int) -> List[List[int]]:
    """Returns how far along each vertex is: of polylines that have the long segment first, and that have it second."""
    return [[start, last]] if len(drawer.kinds) == 1 else [[start, last, last - 3], [4, start, last]]


def of_lines(is_y: bool) -> None:
    """A test of lines of the greatest size, and one larger."""
    @across(lines.CHAPTER, *texts(is_y, 'ends'), (RULES[is_y],), (LINES,))
    def one(t: Draft, drawer: Drawer, x: int, y: int) -> None:
        at, last = 10 + x, LAST[is_y]
        for area in ends(is_y):
            t.before(area)
            for start, side in ((0, at), (-1, at + 8)):
                for number, chain in enumerate(chains(drawer, start, last)):
                    points = [turned(along, side + 2 * number, is_y) for along in chain]
                    t.packet(line(points, [COLOR] * len(points) if drawer.is_shaded else COLOR))
        for number in range(len(drawer.kinds)):
            judged(t, is_y, at + 2 * number, 1, True)
            judged(t, is_y, at + 8 + 2 * number, 1, False)
        if len(drawer.kinds) > 1:           # of each polyline the short segment is drawn
            for along in (last - 3, last - 2, last - 1):
                t.cell(*turned(along, at + 8, is_y), CELL)
            t.ignore(*turned(last - 3, at + 8, is_y), 1)
            for along in range(5):
                t.cell(*turned(along, at + 10, is_y), CELL)


def of_rectangles(is_y: bool) -> None:
    """A test of rectangles of the greatest size: the size rule does not hold for them."""
    @across(rectangles.CHAPTER, texts(is_y, '')[0], 'Sizes up to %d in %s are drawn in {}.' % (LAST[is_y], 'XY'[is_y]),
            (RULES[is_y],), (RECTANGLES,), only=has_a_size_word, before=loaded)
    def one(t: Draft, drawer: Drawer, x: int, y: int) -> None:
        t.before(texture_window(31, 31, 0, 0))
        at, last = 20 + x, LAST[is_y]
        first, *words = drawer.words(*turned(0, at, is_y), color(drawer))
        width, height = turned(last, 1, is_y)
        t.packet(first, words[:-1], height << 16 | width)
        t.box(*turned(0, at, is_y), width, height, CELL)


for _is_y in (False, True):
    of_polygons(_is_y)
    of_lines(_is_y)
    of_rectangles(_is_y)


def has_two_halves(drawer: Drawer) -> bool:
    return len(drawer.kinds) > 1


@across(polygons.CHAPTER, 'size-of-one-half', 'Of a quad with one half too large the other is drawn, in {}.', RULES[:1],
        (POLYGONS,), OWN, only=has_two_halves, before=loaded)
def one_half(t: Draft, drawer: Drawer, x: int, y: int) -> None:
    for number, corners in enumerate(([(-1016, 0), (8, 0), (0, 8), (8, 8)], [(-1, 0), (8, 0), (-1, 8), (1023, 8)])):
        top = 20 + 2 * x + 10 * number
        t.packet(drawer.polygons([(i, top + j) for i, j in corners], [color(drawer)] * 4, [(0, 0)] * 4, page_of(2)))
        for j in range(9):
            for i in range(9):
                side = (i + j - 8) if number == 0 else (9 * (8 - j) // 8 - 1 - i)       # how far from the slope
                if abs(side) <= 1:
                    t.ignore(i, top + j, 1)
                elif side > 0 and i < 8 and j < 8:
                    t.cell(i, top + j, CELL)


@across(rectangles.CHAPTER, 'empty', 'With a width or a height of 0 nothing is drawn, in {}.', ('size 0',),
        (RECTANGLES,),
        only=has_a_size_word, before=loaded)
def empty(t: Draft, drawer: Drawer, x: int, y: int) -> None:
    words = drawer.words(x + 10, y + 10, color(drawer))
    for size in (2, 2 << 16):
        t.packet(words[:-1], size)
    t.packet(drawer.words(x, y, color(drawer)))
    expect(t, drawer, x, y, lambda i, j: CELL)
