"""Texels in each kind of packet and in each depth: page, palette, U and V, texels of 0000h, and bit 15."""
from __future__ import annotations

from typing import Callable, Tuple

from psxgpu.conformance.across import (CLUT, DEEP, DEPTHS, ENTRIES, PAGE_X, Value, across, corners, expect, is_textured,
                                       mode, page_of, palette, texel_of, texels, textured, under, varied)
from psxgpu.conformance.packets import POLYGONS, RECTANGLES, Drawer
from psxgpu.conformance.suite import OWN, Chapter, Draft

CHAPTER = Chapter('texels', 'GPU Video Memory (VRAM): Texture Bitmaps, Texture Palettes')
SOLID = (POLYGONS, RECTANGLES)
Corner = Callable[[Drawer], Tuple[int, int]]


def maps(t: Draft, drawer: Drawer, place: Tuple[int, int], depth: int, corner: Tuple[int, int], page: int) -> None:
    """Draws a box with the varied texels from a corner on."""
    mode(t, page)
    textured(t, drawer, place, corner, page, CLUT)
    u, v = corner
    expect(t, drawer, *place, lambda i, j: texel_of(depth, varied(depth)(u + i, v + j)))


def corner_test(name: str, says: str, rule: str, corner: Corner, x: int, y: int, u: int, v: int) -> None:
    """A test of texels of a page at (x, y), in each depth: those of 16 by 16 from (u, v) on are loaded."""
    def before(t: Draft, depth: int) -> None:
        texels(t, depth, u, v, 20 if u else 16, 20 if v else 16, varied(depth), x, y)

    for depth, bits in enumerate(DEPTHS):
        def loaded(t: Draft, depth: int = depth) -> None:
            palette(t, ENTRIES)
            before(t, depth)

        def one(t: Draft, drawer: Drawer, left: int, top: int, depth: int = depth) -> None:
            maps(t, drawer, (left, top), depth, corner(drawer), page_of(depth, 0, x, y))
        across(CHAPTER, '%s-%s' % (name, bits.replace(' ', '-')), says + ': %s.' % bits, (rule + ', ' + bits,), SOLID,
               only=is_textured, before=loaded)(one)


corner_test('page-x', 'In {} the page may be at X 960', 'page X', lambda drawer: (0, 0), 960, 0, 0, 0)
corner_test('page-y', 'In {} the page may be at Y 256', 'page Y', lambda drawer: (0, 0), 512, 256, 0, 0)
corner_test('high-u', 'In {} U has eight bits', 'U', lambda drawer: (corners(drawer)[0], 0), 512, 0, 236, 0)
corner_test('high-v', 'In {} V has eight bits', 'V', lambda drawer: (0, corners(drawer)[1]), 512, 0, 0, 236)


def palette_test(name: str, says: str, rule: str, x: int, y: int) -> None:
    """A test of the place of a palette. Of 8 bits the indexes are below 16: the palette does not go over the edge."""
    def before(t: Draft) -> None:
        palette(t, ENTRIES[:16], x, y)
        for depth in (0, 1):
            texels(t, depth, 0, 0, 16, 16, varied(0), PAGE_X + 64 * depth)

    @across(CHAPTER, name, says, [rule + ', ' + bits for bits in DEPTHS[:2]], SOLID, only=is_textured, before=before,
            section='Clut Attribute')
    def one(t: Draft, drawer: Drawer, left: int, top: int) -> None:
        for depth in (0, 1):
            page, down = page_of(depth, 0, PAGE_X + 64 * depth), top + DEEP * depth
            mode(t, page)
            textured(t, drawer, (left, down), (0, 0), page, y << 6 | x // 16)
            expect(t, drawer, left, down, lambda i, j: ENTRIES[varied(0)(i, j)])


palette_test('palette-x', 'In {} the palette may be at X 1008.', 'palette X', 1008, 480)
palette_test('palette-y', 'In {} the palette may be in row 511.', 'palette Y', 0, 511)


# Three columns: a texel with bit 15, one of 0000h, one without bit 15. Index 0 is drawn: its entry decides.

COLUMNS = 0x9234, 0x0000, 0x1321


def column(depth: int) -> Value:
    """Returns the indexes or texels of the three columns."""
    return lambda u, v: COLUMNS[u % 3] if depth == 2 else u % 3


def columns(t: Draft) -> None:
    """Loads the three columns in each depth."""
    palette(t, COLUMNS)
    for depth in (0, 1, 2):
        texels(t, depth, 0, 0, 16, 16, column(depth), PAGE_X + 64 * depth)


def shows_columns(t: Draft, drawer: Drawer, x: int, y: int, back: int) -> None:
    """Draws the columns in each depth on cells of one value."""
    for depth in (0, 1, 2):
        page, down = page_of(depth, 0, PAGE_X + 64 * depth), y + DEEP * depth
        under(t, drawer, x, down, lambda i, j: back)
        mode(t, page)
        textured(t, drawer, (x, down), (0, 0), page, CLUT)
        expect(t, drawer, x, down, lambda i, j: COLUMNS[i % 3] or back)


@across(CHAPTER, 'texel-0', 'In {} a texel of 0000h is not drawn; with a palette its entry decides, and not the index.',
        ['texel 0000h, ' + bits for bits in DEPTHS], SOLID, only=is_textured, before=columns)
def texel_0(t: Draft, drawer: Drawer, x: int, y: int) -> None:
    shows_columns(t, drawer, x, y, 0x0421)


@across(CHAPTER, 'bit-15', 'In {} bit 15 of a cell is that of the texel, in each depth.',
        ['bit 15 of a texel, ' + bits for bits in DEPTHS], SOLID, only=is_textured, before=columns,
        section='GP0(E6h) Mask Bit Setting')
def bit_15(t: Draft, drawer: Drawer, x: int, y: int) -> None:
    shows_columns(t, drawer, x, y, 0x8421)


# The right edge. The rows of the page are below the sheet.

def over_the_edge(depth: int, u: int) -> None:
    """A test of a page at X 960 whose texels from U on continue at X 0."""
    def before(t: Draft) -> None:
        palette(t, ENTRIES)
        each, index = (4, 2, 1)[depth], varied(depth)
        for v in range(200, 216):
            cells = [sum(index(u + each * at + low, v) << 8 * low for low in range(each)) for at in range(16 // each)]
            t.given(960 + u // each, v, 1024 - 960 - u // each, cells[:1024 - 960 - u // each])
            t.given(0, v, len(cells) - 1024 + 960 + u // each, cells[1024 - 960 - u // each:])

    @across(CHAPTER, 'page-wraps-%s' % DEPTHS[depth].replace(' ', '-'),
            'In {} a page of %s at the right edge continues at X 0 of the same row.' % DEPTHS[depth],
            ('page wraps, ' + DEPTHS[depth],), SOLID, OWN, only=is_textured, before=before)
    def one(t: Draft, drawer: Drawer, x: int, y: int) -> None:
        maps(t, drawer, (x, y), depth, (u, 200), page_of(depth, 0, 960))


over_the_edge(1, 126)
over_the_edge(2, 62)


def split_palette(t: Draft) -> None:
    """A palette of 8 bits at X 1008: its entries from 16 on are at X 0."""
    t.given(1008, 500, 16, ENTRIES[:16])
    t.given(0, 500, 16, ENTRIES[16:32])
    texels(t, 1, 0, 0, 16, 16, lambda u, v: 14 + u % 16)


@across(CHAPTER, 'palette-wraps', 'In {} a palette at the right edge continues at X 0 of the same row.',
        ('palette wraps',),
        SOLID, OWN, only=is_textured, before=split_palette, section='Clut Attribute')
def palette_wraps(t: Draft, drawer: Drawer, x: int, y: int) -> None:
    mode(t, page_of(1))
    textured(t, drawer, (x, y), (0, 0), page_of(1), 500 << 6 | 63)
    expect(t, drawer, x, y, lambda i, j: ENTRIES[14 + i])
