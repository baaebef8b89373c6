"""Tests of one rule in many kinds of packet: a box of each, on a sheet, and a test for each family of packets."""
from __future__ import annotations

from typing import Callable, Iterable, Iterator, List, Optional, Sequence, Tuple

from psxgpu.capture import clut, draw_mode, load, texture_page
from psxgpu.conformance.packets import DRAWERS, LINES, POLYGONS, RECTANGLES, Drawer
from psxgpu.conformance.suite import FORMULA, PSX_SPX, Chapter, Draft
from psxgpu.vram import WIDTH

DRAWN = (POLYGONS, RECTANGLES, LINES)
WORDS = {POLYGONS: 'each kind of polygon', RECTANGLES: 'each kind of rectangle', LINES: 'each kind of line'}
PITCH, ACROSS = 20, 6           # of the sheet: boxes of at most 16 cells each way
DEEP = 48                       # rows of the sheet for one depth
DEPTHS = ('4 bits', '8 bits', '15 bits')
NEUTRAL = 0x808080              # the colour that leaves a texel
PALETTE_X, PALETTE_Y = 256, 480
PAGE_X = 512
CLUT = clut(PALETTE_X, PALETTE_Y)
One = Callable[[Draft, Drawer, int, int], None]
Value = Callable[[int, int], int]


def is_any(drawer: Drawer) -> bool:
    """Accepts every drawer."""
    return True


def is_textured(drawer: Drawer) -> bool:
    """Accepts packets with a texture."""
    return drawer.is_textured


def has_many_cells(drawer: Drawer) -> bool:
    """Accepts packets with a texture whose second cell has another texel."""
    return drawer.is_textured and drawer.kinds[0].shape != '1 by 1'


def sheet(drawers: Iterable[Drawer]) -> Iterator[Tuple[Drawer, int, int]]:
    """Yields drawers, each with its place on the sheet."""
    for at, drawer in enumerate(drawers):
        yield drawer, PITCH * (at % ACROSS), PITCH * (at // ACROSS)


def across(chapter: Chapter, name: str, says: str, rules: Sequence[str], families: Sequence[str] = DRAWN,
           decides: str = PSX_SPX, only: Callable[[Drawer], bool] = is_any, section: Optional[str] = None,
           before: Optional[Callable[[Draft], None]] = None) -> Callable[[One], One]:
    """Makes a test for each family of a function that draws one box and expects it. `says`: the rule, with `{}` for the
    family. `rules`: the rows of the table that each of the tests is about. `before`: what prepares a test."""
    def keep(one: One) -> One:
        for family in families:
            some = [drawer for drawer in DRAWERS if drawer.family == family and only(drawer)]

            def write(t: Draft, some: List[Drawer] = some) -> None:
                t.open()
                if before:
                    before(t)
                for drawer, x, y in sheet(some):
                    one(t, drawer, x, y)
            marks = frozenset((rule, kind.name) for rule in rules for drawer in some for kind in drawer.kinds)
            chapter.add('%s-in-%s' % (name, family), says.format(WORDS[family]), decides, FORMULA, write, section,
                        marks)
        return one
    return keep


def expect(t: Draft, drawer: Drawer, x: int, y: int, value: Value, is_twice: bool = False) -> None:
    """Expects the cells of a box: `value` has the column and the row in the box. `is_twice`: it matters whether a
    cell is drawn twice."""
    for down in range(drawer.height):
        for right in range(drawer.width):
            if 0 <= x + right < WIDTH and 0 <= y + down < t.rows:
                t.cell(x + right, y + down, value(right, down))
    for left, top, width, height in drawer.unsure(is_twice):
        left, width = max(x + left, 0), min(width, WIDTH - x - left)
        top, height = max(y + top, 0), min(height, t.rows - y - top)
        if width > 0 and height > 0:
            t.ignore(left, top, width, height)


def under(t: Draft, drawer: Drawer, x: int, y: int, value: Value) -> None:
    """Loads the cells on which a box is drawn."""
    cells = [value(right, down) for down in range(drawer.height) for right in range(drawer.width)]
    t.before(load(x, y, drawer.width, drawer.height, cells))


# Textures: `index` has the U and the V of a texel, and returns an index of a palette or, in 15 bits, the texel.

def texels(t: Draft, depth: int, u: int, v: int, width: int, height: int, index: Value, x: int = PAGE_X, y: int = 0
           ) -> None:
    """Loads the texels from (u, v) on of the page at (x, y)."""
    each = (4, 2, 1)[depth]
    left, right = u // each, -(-(u + width) // each)
    rows: List[int] = []
    for down in range(v, v + height):
        for cell in range(left, right):
            rows.append(sum(index(each * cell + at, down) << 16 // each * at for at in range(each)))
    t.given(x + left, y + v, right - left, rows)


def palette(t: Draft, entries: Sequence[int], x: int = PALETTE_X, y: int = PALETTE_Y) -> int:
    """Loads a palette. Returns its attribute."""
    t.given(x, y, len(entries), entries)
    return clut(x, y)


ENTRIES = [0x1000 + 0x0011 * at for at in range(256)]


def varied(depth: int) -> Value:
    """Returns indexes that differ from those of the texels beside them, and of those whose U or V has another bit."""
    return (lambda u, v: (u ^ u >> 4 ^ 3 * (v ^ v >> 4)) & 15, lambda u, v: (u + 16 * v + (v >> 4)) & 255,
            lambda u, v: 1 + (u + 251 * v) % 0x7FFF)[depth]


def texel_of(depth: int, index: int) -> int:
    """Returns the texel of one of these indexes under ENTRIES."""
    return index if depth == 2 else ENTRIES[index]


def textured(t: Draft, drawer: Drawer, place: Tuple[int, int], texel: Tuple[int, int], page: int, clut_of: int = 0,
             semi: bool = False) -> None:
    """Draws a box with a texture: polygons bring the page, for rectangles GP0(E1h) has it."""
    t.packet(drawer.words(*place, NEUTRAL, *texel, page, clut_of, semi))


def page_of(depth: int, blend: int = 0, x: int = PAGE_X, y: int = 0) -> int:
    """Returns the attribute of a page."""
    return texture_page(x, y, depth, blend)


def mode(t: Draft, page: int, **bits: bool) -> None:
    """Sets GP0(E1h)."""
    t.before(draw_mode(page, **bits))


def corners(drawer: Drawer) -> Tuple[int, int]:
    """Returns the greatest U and V with which a box can begin: a polygon has its vertices at the next ones."""
    edge = 1 if drawer.family == POLYGONS else 0
    return 256 - edge - drawer.width, 256 - edge - drawer.height

