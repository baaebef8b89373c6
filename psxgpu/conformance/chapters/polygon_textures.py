"""More of the chapter textures: how polygons are mapped."""
from __future__ import annotations

from psxgpu.capture import clut, polygon, texture_page
from psxgpu.conformance.chapters.textures import CHAPTER
from psxgpu.conformance.suite import OWN, Draft


@CHAPTER.test('Mapped one to one, cell (i, j) of a polygon has U and V of its corner plus i and j.',
              section='GPU Render Polygon Commands')
def polygon_one_to_one(t: Draft) -> None:
    t.open()
    texels = [0x1000 + at for at in range(64)]
    t.given(512, 0, 8, texels)
    t.packet(polygon([(16, 8), (24, 8), (16, 16), (24, 16)], 0, texture=[(0, 0), (8, 0), (0, 8), (8, 8)],
                     page=texture_page(512, 0, 2), raw=True))
    for y in range(8):
        t.row(16, 8 + y, texels[8 * y:8 * y + 8])


@CHAPTER.test('Mapped the other way round, U falls from the right vertex: the exact value rounded down.', OWN,
              section='GPU Render Polygon Commands')
def polygon_mirrored(t: Draft) -> None:
    t.open()
    texels = [0x1000 + at for at in range(9)]
    t.given(512, 0, 9, texels)
    t.packet(polygon([(16, 8), (24, 8), (16, 9), (24, 9)], 0, texture=[(8, 0), (0, 0), (8, 0), (0, 0)],
                     page=texture_page(512, 0, 2), raw=True))
    t.row(16, 8, texels[8:0:-1])


@CHAPTER.test('Mapped at double size, each texel covers two cells: the exact value rounded down.', OWN,
              section='GPU Render Polygon Commands')
def polygon_double_size(t: Draft) -> None:
    t.open()
    texels = [0x1000 + at for at in range(5)]
    t.given(512, 0, 5, texels)
    t.packet(polygon([(16, 8), (24, 8), (16, 9), (24, 9)], 0, texture=[(0, 0), (4, 0), (0, 0), (4, 0)],
                     page=texture_page(512, 0, 2), raw=True))
    t.row(16, 8, [texels[at // 2] for at in range(8)])


@CHAPTER.test('The palette of a polygon is that of its first vertex, and its page that of the second.',
              section='GPU Render Polygon Commands')
def attributes_of_a_polygon(t: Draft) -> None:
    t.open()
    t.given(0, 480, 2, [0x0000, 0x1234])
    t.given(16, 480, 2, [0x0000, 0x0421])
    t.given(576, 0, 1, [0x1111])
    words = polygon([(8, 8), (10, 8), (8, 10)], 0, texture=[(0, 0)] * 3, page=texture_page(576, 0, 0),
                    palette=clut(0, 480), raw=True)
    words[6] |= clut(16, 480) << 16         # the third attribute means nothing
    t.packet(words)
    t.row(8, 8, [0x1234, 0x1234])
    t.cell(8, 9, 0x1234)


def mapped_with_palette(t: Draft, depth: int, cells: list[int], indexes: range) -> None:
    """A row of a polygon, mapped one to one, and the entries that it shows."""
    t.open()
    entries = [0x1000 + at for at in range(16)]
    t.given(0, 480, 16, entries)
    t.given(512, 0, len(cells), cells)
    end = len(indexes)
    t.packet(polygon([(16, 8), (16 + end, 8), (16, 9), (16 + end, 9)], 0, texture=[(0, 0), (end, 0), (0, 0), (end, 0)],
                     palette=clut(0, 480), page=texture_page(512, 0, depth), raw=True))
    t.row(16, 8, [entries[index] for index in indexes])


@CHAPTER.test('A polygon of 4 bits: a cell has four texels, the lowest four bits being the left one.',
              section='GPU Render Polygon Commands')
def polygon_four_bits(t: Draft) -> None:
    mapped_with_palette(t, 0, [0x3210, 0x7654], range(8))


@CHAPTER.test('A polygon of 8 bits: a cell has two texels, the low byte being the left one.',
              section='GPU Render Polygon Commands')
def polygon_eight_bits(t: Draft) -> None:
    mapped_with_palette(t, 1, [0x0A09, 0x0C0B], range(9, 13))
