"""Shaded polygons without dither."""
from __future__ import annotations

from psxgpu.capture import polygon
from psxgpu.conformance.packets import POLYGONS, Kind, marks
from psxgpu.conformance.suite import FORMULA, OWN, Chapter, Draft, rgb

CHAPTER = Chapter('gouraud', 'GPU Render Polygon Commands')
SIDE = 16


def shaded(t: Draft, colors: list[int], x: int = 0, y: int = 0) -> None:
    """A right triangle with legs of 16: at (i, j) the vertices weigh 16 - i - j, i and j sixteenths."""
    t.packet(polygon([(x, y), (x + SIDE, y), (x, y + SIDE)], colors))
    for j in range(SIDE):
        for i in range(SIDE - j):
            weights = SIDE - i - j, i, j
            color = sum((sum(weight * (one >> shift & 0xFF) for weight, one in zip(weights, colors)) // SIDE) << shift
                        for shift in (0, 8, 16))
            t.cell(x + i, y + j, rgb(color))
    for j in range(SIDE + 1):
        t.ignore(x + max(SIDE - 1 - j, 0), y + j, 2)    # beside the slope: which are drawn is a test of polygons


@CHAPTER.test('Three vertices of one colour give that colour in every cell.', worked=FORMULA)
def one_color(t: Draft) -> None:
    t.open()
    shaded(t, [0x5A7B9C] * 3)


@CHAPTER.test('A channel that goes up by 8 a cell goes up by one step a cell.', worked=FORMULA)
def whole_steps(t: Draft) -> None:
    t.open()
    shaded(t, [0x040404, 0x840404, 0x048404], 32, 16)


@CHAPTER.test('A channel is the exact mean of the three vertices, rounded down.', OWN, FORMULA)
def exact_mean(t: Draft) -> None:
    t.open()
    shaded(t, [0x0000FF, 0x00FF00, 0xFF0000])


@CHAPTER.test('Channels that fall are rounded down, too.', OWN, FORMULA)
def falling(t: Draft) -> None:
    t.open()
    shaded(t, [0xFFF7EF, 0x000102, 0x030405])


@CHAPTER.test('The cell at the upper left vertex has that vertex\'s colour.')
def first_cell(t: Draft) -> None:
    t.open()
    t.packet(polygon([(8, 8), (24, 8), (8, 24)], [0x30A0F0, 0xFFFFFF, 0x000000]))
    t.ignore(9, 8, 15)
    t.ignore(8, 9, 16, 15)
    t.cell(8, 8, rgb(0x30A0F0))


@CHAPTER.test('The colour of a shaded polygon does not depend on where the drawing area cuts it.', OWN, FORMULA)
def cut_at_the_left(t: Draft) -> None:
    t.open(5, 3, 1023, 511)
    shaded(t, [0x0000FF, 0x00FF00, 0xFF0000])
    t.cells = {(x, y): value for (x, y), value in t.cells.items() if x >= 5 and y >= 3}


@CHAPTER.test('A channel that is whole in a cell is that number, though its steps are not whole.', OWN,
              marks=marks(('shading', 'rounding of colours'), Kind(POLYGONS, 'triangle', 'shaded')))
def whole_between_steps(t: Draft) -> None:
    t.open()
    # Green goes down by 67 1/3 a column and up by 81 1/3 a row: 202 - 67 1/3 + 81 1/3 = 216 in the cell (1, 1).
    t.packet(polygon([(3, 0), (2, 2), (0, 0)], [0x000000, 0x00E600, 0x00CA00]))
    t.row(0, 0, [(202 // 8) << 5, (134 // 8) << 5, (67 // 8) << 5])
    t.row(1, 1, [(216 // 8) << 5, (148 // 8) << 5])
