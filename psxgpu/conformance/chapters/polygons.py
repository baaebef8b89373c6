"""Polygons: which cells they cover, the size rule, and the page that they bring."""
from __future__ import annotations

from itertools import permutations
from typing import Tuple

from psxgpu.capture import draw_mode, polygon, texture_page
from psxgpu.conformance.suite import HAND, OWN, PSX_SPX, Chapter, Draft, cell

CHAPTER = Chapter('polygons', 'GPU Render Polygon Commands')
RED, CELL = 0x0000FF, 0x001F
Point = Tuple[int, int]


def covers(name: str, says: str, vertices: list[Point], rows: str, decides: str, at: Point = (0, 0)) -> None:
    """A flat polygon, and its cells as they are drawn by hand."""
    def write(t: Draft) -> None:
        t.open()
        t.look_at(at[0], at[1], 16, 16)
        t.packet(polygon(vertices, RED))
        t.art(at[0], at[1], rows, **{'x': CELL})
    CHAPTER.add(name, says, decides, HAND, write)


covers('right-and-bottom-out', 'A box of four vertices goes up to its right and lower coordinates, without them.',
       [(2, 1), (6, 1), (2, 4), (6, 4)], '...... ..xxxx ..xxxx ..xxxx ......', PSX_SPX)
covers('upper-left-half', 'The cells on a falling right edge are left out, those on the left and upper edge are drawn.',
       [(1, 1), (6, 1), (1, 6)], '...... .xxxxx .xxxx. .xxx.. .xx... .x....', OWN)
covers('lower-right-half', 'The cells on a falling left edge are drawn, those on the right and lower edge are not.',
       [(6, 1), (6, 6), (1, 6)], '...... ...... .....x ....xx ...xxx ..xxxx', OWN)
covers('upper-right-half', 'The cells on a rising left edge are drawn.',
       [(1, 1), (6, 1), (6, 6)], '...... .xxxxx ..xxxx ...xxx ....xx .....x', OWN)
covers('lower-left-half', 'The cells on a rising right edge are left out.',
       [(1, 1), (6, 6), (1, 6)], '...... ...... .x.... .xx... .xxx.. .xxxx.', OWN)
covers('steep', 'An edge between whole cells covers those whose corner is inside.',
       [(1, 0), (4, 9), (1, 9)], '..... .x... .x... .x... .xx.. .xx.. .xx.. .xxx. .xxx.', OWN)
covers('one-cell', 'A triangle of one cell\'s size draws its upper left cell alone.',
       [(3, 3), (4, 3), (3, 4)], '.... .... .... ...x', OWN)
covers('no-area', 'Three vertices on a line draw nothing.', [(1, 1), (4, 4), (8, 8)], '.', OWN)
covers('negative', 'Vertices left of and above video memory: what is inside is drawn.',
       [(-2, -2), (4, -2), (-2, 4)], 'xx x', OWN)


@CHAPTER.test('X and Y of a vertex have eleven bits: what is above them is dropped.')
def vertex_bits(t: Draft) -> None:
    t.open()
    words = polygon([(2, 1), (6, 1), (2, 4), (6, 4)], RED)
    t.packet(words[0], [word | 0xF800F800 for word in words[1:]])
    t.box(2, 1, 4, 3, CELL)


@CHAPTER.test('The order of the vertices does not matter for which cells are drawn.')
def order_of_vertices(t: Draft) -> None:
    t.open()
    for turn, order in enumerate(permutations([(1, 1), (6, 1), (1, 6)])):
        at = 8 * turn
        t.packet(polygon([(x + at, y) for x, y in order], RED))
        t.art(at, 0, '...... .xxxx. .xxx.. .xx... .x....', x=CELL)
        for y in range(1, 7):
            t.ignore(at + 6 - y, y, 2)          # beside the slope: a rule of this project


@CHAPTER.test('The cells on the edge that both halves of a quad share are drawn once.', OWN)
def shared_edge_once(t: Draft) -> None:
    t.open()
    t.before(draw_mode(texture_page(0, 0, 0, 1)))
    t.given(0, 0, 8, [0x0001] * 64)
    t.packet(polygon([(0, 0), (8, 0), (0, 8), (8, 8)], 0x000010, semi=True))
    t.box(0, 0, 8, 8, 3)


def ignore_diagonals(t: Draft, side: int) -> None:
    """The cells on and beside the diagonals of a box: which of them are drawn is a rule of this project."""
    for y in range(side):
        for x in range(side):
            if abs(x - y) <= 1 or abs(x + y - side) <= 1:
                t.ignore(x, y, 1)


@CHAPTER.test('A quad is the triangles 1-2-3 and 2-3-4: with 3 and 4 exchanged it is a bow and no box.')
def quad_is_two_triangles(t: Draft) -> None:
    t.open()
    t.look_at(0, 0, 8, 8)
    t.packet(polygon([(0, 0), (8, 0), (8, 8), (0, 8)], RED))
    for y in range(8):
        for x in range(8):
            if x > y or x + y > 8:
                t.cell(x, y, CELL)
    ignore_diagonals(t, 8)


@CHAPTER.test('The second half of a quad is drawn over the first.')
def second_half_last(t: Draft) -> None:
    t.open()
    t.packet(polygon([(0, 0), (8, 0), (8, 8), (0, 8)], [0x000080, 0x008000, 0x008000, 0x008000]))
    for y in range(8):
        for x in range(8):
            if x + y > 8:                           # 2-3-4 is green
                t.cell(x, y, cell(0, 16, 0))
            elif x > y:                             # 1-2-3 goes from red to green: see the chapter gouraud
                t.ignore(x, y, 1)
    ignore_diagonals(t, 8)


def wide(name: str, says: str, vertices: list[Point], cells: list[tuple[int, int, int, int]],
         area: tuple[int, int, int, int], decides: str = PSX_SPX) -> None:
    """A polygon at the limit of the size rule; the drawing area cuts it, so that few cells are drawn."""
    def write(t: Draft) -> None:
        t.open(*area)
        t.packet(polygon(vertices, RED))
        for box in cells:
            t.box(*box, CELL)
    CHAPTER.add(name, says, decides, HAND, write)


wide('size-1023-drawn', 'Vertices 1023 apart in X are drawn.', [(0, 0), (1023, 0), (0, 4)], [(0, 0, 8, 2)],
     (0, 0, 7, 1))
wide('size-1024-not-drawn', 'A triangle with vertices 1024 apart in X is not drawn.', [(-1, 0), (1023, 0), (0, 4)], [],
     (0, 0, 7, 1))
wide('size-511-drawn', 'Vertices 511 apart in Y are drawn.', [(0, 0), (8, 0), (0, 511)], [(0, 0, 2, 8)], (0, 0, 1, 7))
wide('size-512-not-drawn', 'A triangle with vertices 512 apart in Y is not drawn.', [(0, -1), (8, 0), (0, 511)], [],
     (0, 0, 1, 7))
wide('size-of-each-half', 'Of a quad with one half too large the other half is drawn.',
     [(0, 0), (4, 0), (0, 4), (-1023, 2)], [(0, 0, 4, 1), (0, 1, 3, 1), (0, 2, 2, 1), (0, 3, 1, 1)], (0, 0, 7, 7), OWN)


@CHAPTER.test('A textured polygon puts its page into GP0(E1h) bits 0 to 8, and leaves bits 9 and 10.',
              section='GP0(E1h) Draw Mode setting')
def brings_its_page(t: Draft) -> None:
    t.open()
    t.before(draw_mode(dither=True, draw_to_display=True))
    t.packet(polygon([(0, 0), (1, 0), (0, 1)], texture=[(0, 0)] * 3, page=0x01FF))
    t.stat(0x7FF, mask=0x7FF)


@CHAPTER.test('The page holds for the polygon that brings it, and for the rectangles after it.',
              section='GP0(E1h) Draw Mode setting')
def page_in_force(t: Draft) -> None:
    t.open()
    t.given(576, 0, 1, [0x1234])
    t.packet(polygon([(0, 0), (1, 0), (0, 1)], texture=[(0, 0)] * 3, page=texture_page(576, 0, 2), raw=True))
    t.packet(0x65000000, 4, 0, 1 << 16 | 1)
    t.cell(0, 0, 0x1234)
    t.cell(4, 0, 0x1234)


@CHAPTER.test('A polygon that the size rule refuses brings its page too.', OWN, section='GP0(E1h) Draw Mode setting')
def page_of_a_refused_one(t: Draft) -> None:
    t.open()
    t.packet(polygon([(-1, 0), (1023, 0), (0, 4)], texture=[(0, 0)] * 3, page=0x0105))
    t.stat(0x105, mask=0x1FF)


@CHAPTER.test('A polygon without texture leaves the page.', section='GP0(E1h) Draw Mode setting')
def flat_leaves_the_page(t: Draft) -> None:
    t.open()
    t.before(draw_mode(0x0105))
    t.packet(polygon([(0, 0), (1, 0), (0, 1)], RED))
    t.cell(0, 0, CELL)
    t.stat(0x105, mask=0x1FF)
