"""The drawing area and the drawing offset: GP0(E3h) to GP0(E5h)."""
from __future__ import annotations

from psxgpu.capture import drawing_area, drawing_offset, line, polygon, rectangle
from psxgpu.conformance.suite import OWN, Chapter, Draft

CHAPTER = Chapter('area', 'GP0(E3h), GP0(E4h) Set Drawing Area, GP0(E5h) Set Drawing Offset')
RED, CELL = 0x0000FF, 0x001F


@CHAPTER.test('Both corners of the drawing area are inside, for rectangles.', OWN)
def cuts_rectangles(t: Draft) -> None:
    t.open(4, 5, 6, 8)
    t.packet(rectangle(RED, 0, 0, 16, 16))
    t.box(4, 5, 3, 4, CELL)


@CHAPTER.test('Both corners of the drawing area are inside, for polygons.', OWN)
def cuts_polygons(t: Draft) -> None:
    t.open(4, 5, 6, 8)
    t.packet(polygon([(0, 0), (16, 0), (0, 16), (16, 16)], RED))
    t.box(4, 5, 3, 4, CELL)


@CHAPTER.test('Both corners of the drawing area are inside, for lines.', OWN)
def cuts_lines(t: Draft) -> None:
    t.open(4, 5, 6, 8)
    t.packet(line([(0, 5), (9, 5)], RED), line([(4, 0), (4, 9)], RED), line([(0, 8), (9, 8)], RED),
             line([(6, 0), (6, 9)], RED))
    t.art(4, 5, 'xxx x.x x.x xxx', x=CELL)


@CHAPTER.test('An area whose left edge is right of its right edge draws nothing.', OWN)
def empty_in_x(t: Draft) -> None:
    t.open(7, 0, 6, 511)
    t.packet(rectangle(RED, 0, 0, 16, 16), line([(0, 0), (9, 9)], RED))


@CHAPTER.test('An area whose upper edge is below its lower edge draws nothing.', OWN)
def empty_in_y(t: Draft) -> None:
    t.open(0, 7, 1023, 6)
    t.packet(rectangle(RED, 0, 0, 16, 16), line([(0, 0), (9, 9)], RED))


@CHAPTER.test('After a reset the area is the cell (0, 0).', OWN)
def after_reset(t: Draft) -> None:
    t.open()
    t.gp1(0)
    t.packet(rectangle(RED, 0, 0, 16, 16))
    t.cell(0, 0, CELL)


@CHAPTER.test('The corners\' Y has nine bits: 512 is 0.', OWN)
def nine_bits_of_y(t: Draft) -> None:
    t.before(0xE3000000, 0xE4000000 | 512 << 10 | 3)
    t.packet(rectangle(RED, 0, 0, 8, 8))
    t.box(0, 0, 4, 1, CELL)


@CHAPTER.test('The area is that of the time when a packet is drawn.')
def at_the_time(t: Draft) -> None:
    t.open(0, 0, 1, 1)
    t.packet(rectangle(RED, 0, 0, 8, 8), drawing_area(4, 0, 5, 1), rectangle(RED, 0, 0, 8, 8))
    t.box(0, 0, 2, 2, CELL)
    t.box(4, 0, 2, 2, CELL)


@CHAPTER.test('The drawing offset is added to the vertices of rectangles, polygons and lines.')
def offset(t: Draft) -> None:
    t.open()
    t.before(drawing_offset(10, 20))
    t.packet(rectangle(RED, 0, 0, 2, 2), polygon([(4, 0), (6, 0), (4, 2), (6, 2)], RED), line([(8, 0), (10, 0)], RED))
    t.ignore(20, 20, 1)         # whether the last point is drawn is a test of the chapter lines
    t.box(10, 20, 2, 2, CELL)
    t.box(14, 20, 2, 2, CELL)
    t.box(18, 20, 2, 1, CELL)


@CHAPTER.test('The offset has eleven bits with a sign each.')
def negative_offset(t: Draft) -> None:
    t.open()
    t.before(drawing_offset(-10, -20))
    t.packet(rectangle(RED, 12, 23, 2, 2))
    t.box(2, 3, 2, 2, CELL)


@CHAPTER.test('The drawing area is not moved by the offset.')
def offset_leaves_the_area(t: Draft) -> None:
    t.open(4, 4, 7, 7)
    t.before(drawing_offset(4, 4))
    t.packet(rectangle(RED, 0, 0, 16, 16))
    t.box(4, 4, 4, 4, CELL)


@CHAPTER.test('The sum of a rectangle\'s corner and the offset is not wrapped: -1024 and -1020 are far outside.', OWN)
def sum_not_wrapped_below(t: Draft) -> None:
    t.open()
    t.before(drawing_offset(-1024, 0))
    t.packet(rectangle(RED, -1020, 0, 8, 8))


@CHAPTER.test('The sum of a line\'s end and the offset is not wrapped.', OWN)
def sum_of_a_line(t: Draft) -> None:
    t.open()
    t.before(drawing_offset(-1024, 0))
    t.packet(line([(-1020, 0), (-1000, 0)], RED))


@CHAPTER.test('The sum of a polygon\'s vertex and the offset is not wrapped.', OWN)
def sum_of_a_polygon(t: Draft) -> None:
    t.open()
    t.before(drawing_offset(0, -1024))
    t.packet(polygon([(0, -1020), (8, -1020), (0, -1012), (8, -1012)], RED))
