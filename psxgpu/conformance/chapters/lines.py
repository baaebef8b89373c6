"""Lines and polylines: GP0(40h) to GP0(5Fh)."""
from __future__ import annotations

from typing import Tuple

from psxgpu.capture import draw_mode, line, rectangle, texture_page
from psxgpu.conformance.packets import LINES, Kind, marks
from psxgpu.conformance.suite import FORMULA, HAND, OWN, PSX_SPX, Chapter, Draft, cell

CHAPTER = Chapter('lines', 'GPU Render Line Commands')
RED, CELL = 0x0000FF, 0x001F
GREEN, GREEN_CELL = 0x00FF00, 0x03E0
Point = Tuple[int, int]


def draws(name: str, says: str, points: list[Point], rows: str, decides: str = PSX_SPX) -> None:
    """A line, and its cells as they are drawn by hand from (0, 0) on."""
    def write(t: Draft) -> None:
        t.open()
        t.look_at(0, 0, 12, 12)
        t.packet(line(points, RED))
        t.art(0, 0, rows, x=CELL)
    CHAPTER.add(name, says, decides, HAND, write)


draws('horizontal', 'A horizontal line has both its ends.', [(1, 1), (5, 1)], '...... .xxxxx')
draws('vertical', 'A vertical line has both its ends.', [(2, 1), (2, 4)], '... ..x ..x ..x ..x')
draws('falling-diagonal', 'A falling diagonal has one cell a row.', [(1, 1), (4, 4)], '. .x ..x ...x ....x')
draws('rising-diagonal', 'A rising diagonal has one cell a row.', [(1, 4), (4, 1)], '. ....x ...x ..x .x')
draws('backward', 'A line from right to left has both its ends.', [(5, 1), (1, 1)], '...... .xxxxx')
draws('point', 'A line with both ends in one place is a point.', [(3, 2), (3, 2)], '. . ...x')
draws('thirds', 'A slope of a third goes to the nearest row.', [(0, 0), (6, 2)], 'xx ..xxx .....xx', OWN)
draws('half-falling', 'A half goes to the greater Y: the second cell of a slope of a half is on the lower row.',
      [(0, 0), (4, 2)], 'x .xx ...xx', OWN)
draws('half-backward', 'From the other end the same cells are drawn, where Y falls as X does.',
      [(4, 2), (0, 0)], 'x .xx ...xx', OWN)
draws('half-rising', 'A rising half goes to the greater Y: the second cell stays in the row.',
      [(0, 2), (4, 0)], '....x ..xx xx', OWN)
draws('half-steep', 'A half in X goes to the greater X.', [(0, 0), (2, 4)], 'x .x .x ..x ..x', OWN)
draws('polyline', 'A polyline of three points is two lines.', [(0, 0), (3, 0), (3, 3)], 'xxxx ...x ...x ...x')


@CHAPTER.test('The joint of a polyline is drawn twice: with B + F it is brighter.', OWN)
def joint_twice(t: Draft) -> None:
    t.open()
    t.before(draw_mode(texture_page(0, 0, 0, 1)))
    t.packet(line([(0, 0), (2, 0), (4, 0)], 0x080808, semi=True))
    t.row(0, 0, [0x0421, 0x0421, 0x0842, 0x0421, 0x0421])


def ends(name: str, says: str, words: list[int], decides: str = PSX_SPX) -> None:
    """After the end word, if it is one, a rectangle is drawn. The line itself is ignored."""
    def write(t: Draft) -> None:
        t.open()
        t.packet(words, rectangle(GREEN, 8, 8, 1, 1))
        t.ignore(0, 0, 4)
        t.cell(8, 8, GREEN_CELL)
    CHAPTER.add(name, says, decides, HAND, write)


LINE = [0x48000000 | RED, 0, 3]
ends('end-50005000', '50005000h ends a polyline.', LINE + [0x50005000])
ends('end-55555555', '55555555h ends a polyline.', LINE + [0x55555555])
ends('end-bits', 'Bits 28 to 31 and 12 to 15 alone make the end word: 5FFF5FFFh ends a polyline.', LINE + [0x5FFF5FFF],
     OWN)
ends('end-in-place-of-a-color', 'A shaded polyline ends in the place of a colour.',
     [0x58000000 | RED, 0, RED, 3, 0x55555555])
ends('no-end-before-two-vertices', 'The second vertex of a polyline is no end word: 50005000h is the vertex (0, 0).',
     [0x48000000 | RED, 3, 0x50005000, 0x50005000], OWN)
ends('no-end-after-a-color', 'A vertex after a colour is no end word.',
     [0x58000000 | RED, 3, RED, 3, RED, 0x50005000, 0x55555555], OWN)


@CHAPTER.test('A word that is nearly an end word is a vertex: 50004000h.', OWN)
def nearly_an_end(t: Draft) -> None:
    t.open()
    t.packet(0x48000000 | RED, 5, 3, 0x50004000, 0x50005000)
    t.ignore(0, 0, 1)           # whether the last point is drawn is another test
    t.row(1, 0, [CELL] * 5)


@CHAPTER.test('A shaded line goes from the first colour to the second.', worked=FORMULA)
def shaded(t: Draft) -> None:
    t.open()
    t.packet(line([(0, 0), (8, 0)], [0x000004, 0x400044]))
    t.row(0, 0, [cell(at, 0, at) for at in range(8)])
    t.ignore(8, 0, 1)


@CHAPTER.test('A channel goes to the nearest, halves upward.', OWN, FORMULA)
def shaded_nearest(t: Draft) -> None:
    t.open()
    first, last, length = (0x10, 0xF1, 0x07), (0xE3, 0x05, 0xF8), 13
    t.packet(line([(0, 0), (length, 0)], [first[0] | first[1] << 8 | first[2] << 16,
                                          last[0] | last[1] << 8 | last[2] << 16]))
    for at in range(length + 1):
        t.cell(at, 0, cell(*((low + (2 * at * (high - low) + length) // (2 * length)) // 8
                             for low, high in zip(first, last))))


@CHAPTER.test('A long line goes to the nearest channel just below a half, too, from either end.', OWN, FORMULA,
              marks=marks(('shading', 'rounding of colours'), Kind(LINES, 'line', 'shaded')))
def shaded_below_a_half(t: Draft) -> None:
    t.open()
    red, length = 0x22, 147     # 67 of 147 parts of 34 are 15.497: the channel is 15, and the cell 1
    t.packet(line([(length, 0), (0, 0)], [0, red]), line([(0, 2), (length, 2)], [red, 0]))
    for y in (0, 2):
        t.row(0, y, [cell((2 * (length - x) * red + length) // (2 * length) // 8, 0, 0) for x in range(length + 1)])


@CHAPTER.test('Each joint of a shaded polyline has a colour of its own.')
def shaded_polyline(t: Draft) -> None:
    t.open()
    t.packet(line([(0, 0), (1, 0), (2, 0)], [RED, GREEN, 0xFF0000]))
    t.row(0, 0, [CELL, GREEN_CELL])
    t.ignore(2, 0, 1)


@CHAPTER.test('The joint of a shaded polyline goes from the second colour to the third.', worked=FORMULA)
def shaded_joint(t: Draft) -> None:
    t.open()
    t.packet(line([(0, 0), (1, 0), (9, 0)], [RED, 0x000004, 0x400044]))
    t.cell(0, 0, CELL)
    t.row(1, 0, [cell(at, 0, at) for at in range(8)])
    t.ignore(9, 0, 1)


@CHAPTER.test('A line draws each of its cells once: with B + F none is brighter.')
def each_cell_once(t: Draft) -> None:
    t.open()
    t.before(draw_mode(texture_page(0, 0, 0, 1)))
    t.packet(line([(5, 3), (5, 6)], 0x080808, semi=True))
    t.box(5, 3, 1, 3, 0x0421)
    t.ignore(5, 6, 1)


def limited(name: str, says: str, points: list[Point], boxes: list[tuple[int, int, int, int]]) -> None:
    def write(t: Draft) -> None:
        t.open()
        t.packet(line(points, RED))
        t.ignore(*points[1], 1)
        for box in boxes:
            t.box(*box, CELL)
    CHAPTER.add(name, says, PSX_SPX, HAND, write)


limited('size-1023-drawn', 'Ends 1023 apart in X are drawn.', [(0, 0), (1023, 0)], [(0, 0, 1023, 1)])
limited('size-1024-not-drawn', 'Ends 1024 apart in X are not drawn.', [(-1, 0), (1023, 0)], [])
limited('size-511-drawn', 'Ends 511 apart in Y are drawn.', [(0, 0), (0, 511)], [(0, 0, 1, 511)])
limited('size-512-not-drawn', 'Ends 512 apart in Y are not drawn.', [(0, -1), (0, 511)], [])


@CHAPTER.test('Of a polyline a segment that is too large is left out alone.')
def size_of_each_segment(t: Draft) -> None:
    t.open()
    t.look_at(0, 0, 8, 8)
    t.packet(line([(2, 0), (0, 0), (-1024, 3), (-1, 5), (-1, 6), (2, 6)], RED))
    t.row(1, 0, [CELL] * 2)
    t.row(0, 6, [CELL] * 2)         # from (-1024, 3) to (-1, 5) is 1023, and out of sight
    t.ignore(0, 0, 1)
    t.ignore(2, 6, 1)


@CHAPTER.test('A line that the drawing area cuts keeps its cells inside.', OWN)
def cut_keeps_its_slope(t: Draft) -> None:
    t.open(2, 0, 3, 511)
    t.packet(line([(0, 0), (4, 2)], RED))
    t.cell(2, 1, CELL)
    t.cell(3, 2, CELL)


@CHAPTER.test('Bit 26 of a line means nothing: 44h is a line of three words.', OWN)
def bit_26(t: Draft) -> None:
    t.open()
    t.packet(0x44000000 | RED, 0, 3)
    t.row(0, 0, [CELL] * 4)


@CHAPTER.test('X and Y of an end have eleven bits: what is above them is dropped.')
def vertex_bits(t: Draft) -> None:
    t.open()
    t.packet(0x40000000 | RED, 0xF801F802, 0xF801F806)
    t.row(2, 1, [CELL] * 4)
    t.ignore(6, 1, 1)           # whether the last point is drawn is another test
