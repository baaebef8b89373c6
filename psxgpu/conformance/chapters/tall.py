"""The tall profile, video memory of 1024 rows: captures of version 3."""
from __future__ import annotations

from psxgpu.capture import (clut, copy, display_mode, draw_mode, drawing_area, fill, horizontal_range, information, line,
                            load, polygon, rectangle, store, texture_page, vertical_range)
from psxgpu.conformance.suite import OWN, Chapter, Draft, Picture

CHAPTER = Chapter('tall', 'Video memory of 2 MB', needs=('tall',), version=3)
RED, CELL = 0x0000FF, 0x001F


@CHAPTER.test('A fill at row 600 stays there, and one over row 1023 continues at row 0.', OWN)
def fills(t: Draft) -> None:
    t.packet(fill(RED, 0, 600, 16, 1), fill(RED, 0, 1023, 16, 2))
    t.box(0, 600, 16, 1, CELL)
    t.box(0, 1023, 16, 2, CELL)


@CHAPTER.test('The drawing area has ten bits of Y.', OWN)
def area(t: Draft) -> None:
    t.before(drawing_area(0, 700, 3, 701))
    t.packet(rectangle(RED, 0, 690, 8, 32))
    t.box(0, 700, 4, 2, CELL)


@CHAPTER.test('GP0(E1h) bit 11 adds 512 to the page\'s Y, and is bit 15 of the status.', OWN)
def page(t: Draft) -> None:
    t.open(0, 0, 1023, 1023)
    t.given(512, 768, 1, [0x1234])
    t.before(draw_mode(0x918))
    t.packet(0x65000000, 0, 0, 1 << 16 | 1)
    t.cell(0, 0, 0x1234)
    t.stat(1 << 15, mask=1 << 15)


@CHAPTER.test('A textured polygon brings bit 11 of its page, too.', OWN)
def page_of_a_polygon(t: Draft) -> None:
    t.open(0, 0, 1023, 1023)
    t.given(512, 768, 1, [0x1234])
    t.packet(polygon([(0, 0), (1, 0), (0, 1)], texture=[(0, 0)] * 3, page=0x918, raw=True))
    t.cell(0, 0, 0x1234)
    t.stat(1 << 15, mask=1 << 15)


@CHAPTER.test('A copy wraps at row 1024.', OWN)
def copies(t: Draft) -> None:
    t.given(0, 1023, 1, [0x1111])
    t.given(0, 0, 1, [0x2222])
    t.packet(copy(0, 1023, 5, 1023, 1, 2))
    t.cell(5, 1023, 0x1111)
    t.cell(5, 0, 0x2222)


@CHAPTER.test('Heights of packets have nine bits in the tall profile, too: a fill of 202h rows has two.', OWN)
def height_of_a_fill(t: Draft) -> None:
    t.packet(0x02000000 | RED, 600 << 16, 0x202 << 16 | 16)
    t.box(0, 600, 16, 2, CELL)


@CHAPTER.test('A copy of height 0 has 512 rows in the tall profile, too.', OWN)
def copy_of_height_0(t: Draft) -> None:
    t.given(4, 511, 1, [0x1111])
    t.given(4, 512, 1, [0x2222])
    t.packet(0x80000000, 4, 9, 1)
    t.cell(9, 511, 0x1111)


@CHAPTER.test('The size rule stays 511 in Y.', OWN)
def size_rule(t: Draft) -> None:
    t.open(0, 0, 1, 1023)
    t.packet(polygon([(0, 0), (8, 0), (0, 512)], RED), polygon([(0, 512), (8, 512), (0, 1023)], RED))
    t.box(0, 512, 2, 128, CELL)
    t.ignore(0, 640, 2, 384)


@CHAPTER.test('A palette has nine bits of Y in the tall profile, too.', OWN)
def palette(t: Draft) -> None:
    t.open(0, 0, 1023, 1023)
    t.given(512, 0, 1, [0x0001])
    t.given(17, 101, 1, [0x1234])
    t.given(17, 613, 1, [0x4321])
    t.before(draw_mode(texture_page(512, 0, 0)))
    t.packet(0x65000000, 0, (0x8000 | clut(16, 101)) << 16, 1 << 16 | 1)
    t.cell(0, 0, 0x1234)


@CHAPTER.test('A corner of the drawing area has 20 bits.', OWN)
def corner_of_20_bits(t: Draft) -> None:
    t.packet(0xE4FFFFFF)
    t.gp1(information(4))
    t.read(0x000FFFFF)


@CHAPTER.test('The picture begins at any of 1024 rows, and continues at row 0 over the bottom.', OWN)
def picture(t: Draft) -> None:
    t.given(0, 1023, 4, [1, 2, 3, 4])
    t.given(0, 0, 4, [5, 6, 7, 8])
    t.gp1(0x05000000 | 1023 << 10, horizontal_range(0x200, 0x228), vertical_range(0x10, 0x12), display_mode(0))
    t.picture = Picture(4, 2, b''.join(bytes([8 * red + red // 4, 0, 0]) for red in range(1, 9)))


@CHAPTER.test('A load wraps at row 1024.', OWN)
def loads(t: Draft) -> None:
    t.packet(load(5, 1022, 1, 3, [0x1111, 0x2222, 0x3333]))
    t.cell(5, 1022, 0x1111)
    t.cell(5, 1023, 0x2222)
    t.cell(5, 0, 0x3333)


@CHAPTER.test('A store wraps at row 1024.', OWN)
def stores(t: Draft) -> None:
    t.given(5, 1023, 1, [0x1111])
    t.given(5, 0, 1, [0x2222])
    t.packet(store(5, 1023, 1, 2))
    t.read(0x22221111)


@CHAPTER.test('Polygons and lines draw below row 511.', OWN)
def polygons_and_lines(t: Draft) -> None:
    t.open(0, 0, 1023, 1023)
    t.packet(polygon([(0, 600), (4, 600), (0, 602), (4, 602)], RED), line([(8, 1023), (11, 1023)], RED))
    t.box(0, 600, 4, 2, CELL)
    t.box(8, 1023, 3, 1, CELL)
    t.ignore(11, 1023, 1)       # whether the last point is drawn is a test of the chapter lines


@CHAPTER.test('A reset leaves the 1024 rows.', OWN)
def reset(t: Draft) -> None:
    t.gp1(0)
    t.packet(fill(RED, 16, 600, 16, 1))
    t.box(16, 600, 16, 1, CELL)
