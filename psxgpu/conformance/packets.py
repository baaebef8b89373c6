"""The kinds of packet, which are the columns of the table of rules, and packets of each kind that draw a box of
cells."""
from __future__ import annotations

from dataclasses import dataclass
from typing import FrozenSet, Iterable, Iterator, List, Tuple

from psxgpu.capture import line, polygon, texcoord, vertex

POLYGONS, RECTANGLES, LINES, TRANSFERS = FAMILIES = ('polygons', 'rectangles', 'lines', 'transfers')
LOOKS = {'flat': 0x00, 'textured': 0x04, 'raw': 0x05, 'shaded': 0x10, 'shaded textured': 0x14, 'shaded raw': 0x15}
SIZES = {'given size': 0, '1 by 1': 1, '8 by 8': 2, '16 by 16': 3}
SIDES = (8, 4, 8, 16)           # of the box that is drawn with each size code: 16 rectangles of one cell are 4 by 4
HALVES = ('first half', 'second half')
SEGMENTS = ('polyline', 'joint')


@dataclass(frozen=True)
class Kind:
    """A kind of packet, or the part of a packet that is drawn by itself: half of a quad, a segment of a polyline,
    half of a word. `look`: one of LOOKS, empty for a transfer."""
    family: str
    shape: str
    look: str = ''

    @property
    def name(self) -> str:
        """The name in the marks of the tests."""
        return self.shape + (', ' + self.look if self.look else '')

    @property
    def is_textured(self) -> bool:
        """Whether it has texels."""
        return bool(self.look) and bool(LOOKS[self.look] & 4)


@dataclass(frozen=True)
class Drawer:
    """Draws a box by packets of one opcode. `kinds`: those that take part, such as both halves of a quad."""
    family: str
    opcode: int
    width: int
    height: int
    kinds: Tuple[Kind, ...]

    @property
    def look(self) -> str:
        """One of LOOKS."""
        return self.kinds[0].look

    @property
    def is_textured(self) -> bool:
        """Whether its packets have a texture."""
        return self.kinds[0].is_textured

    @property
    def is_raw(self) -> bool:
        """Whether its texels are drawn without the colour."""
        return 'raw' in self.look

    @property
    def is_shaded(self) -> bool:
        """Whether each vertex has a colour."""
        return 'shaded' in self.look

    @property
    def is_dithered(self) -> bool:
        """Whether GP0(E1h) bit 9 has an effect."""
        return self.family == LINES or self.family == POLYGONS and self.look not in ('flat', 'raw', 'shaded raw')

    def words(self, x: int, y: int, color: int, u: int = 0, v: int = 0, page: int = 0, palette: int = 0,
              semi: bool = False) -> List[int]:
        """Returns packets that draw the box from (x, y) on in one colour, cell (i, j) with texel (u + i, v + j)."""
        if self.family == POLYGONS:
            corners = [(x + right, y + down) for down in (0, self.height) for right in (0, self.width)]
            texels = [(u + right - x, v + down - y) for right, down in corners]
            return self.polygons(corners, [color] * 4, texels, page, palette, semi)
        if self.family == RECTANGLES:
            return self.rectangles(x, y, color, (u, v), palette, semi)
        return [word for down in range(self.height) for word in self.lines(x, y + down, color, semi)]

    def polygons(self, corners: List[Tuple[int, int]], colors: List[int], texels: List[Tuple[int, int]], page: int = 0,
                 palette: int = 0, semi: bool = False) -> List[int]:
        """Returns a quad, or the two triangles that it consists of."""
        words: List[int] = []
        for some in [slice(0, 4)] if len(self.kinds) > 1 else [slice(0, 3), slice(1, 4)]:
            words += polygon(corners[some], colors[some] if self.is_shaded else colors[0],
                             texels[some] if self.is_textured else None, page, palette, semi, self.is_raw)
        return words

    def rectangles(self, x: int, y: int, color: int, texel: Tuple[int, int], palette: int, semi: bool) -> List[int]:
        """Returns a rectangle, or 16 of one cell."""
        first = (self.opcode | semi << 1) << 24 | color
        is_dot = self.kinds[0].shape == '1 by 1'
        words: List[int] = []
        for down in range(self.height if is_dot else 1):
            for right in range(self.width if is_dot else 1):
                words += [first, vertex(x + right, y + down)]
                if self.is_textured:
                    words.append(texcoord((texel[0] + right) & 255, (texel[1] + down) & 255, palette))
        return words if self.opcode & 0x18 else [*words, self.height << 16 | self.width]

    def lines(self, x: int, y: int, color: int, semi: bool) -> List[int]:
        """Returns a line of the box and the cell after it."""
        points = [(x + at, y) for at in ((0, 8) if len(self.kinds) == 1 else (0, 4, 8))]
        return line(points, [color] * len(points) if self.is_shaded else color, semi)

    def unsure(self, is_twice: bool) -> Iterator[Tuple[int, int, int, int]]:
        """Yields boxes within the box that rules of lines and of edges decide: the last point of a line. `is_twice`: it
        matters whether a cell is drawn twice, so the slope that two triangles share and the joint of a polyline,
        too."""
        if self.family == LINES:
            yield self.width, 0, 1, self.height
            if is_twice and len(self.kinds) > 1:
                yield 4, 0, 1, self.height
        elif self.family == POLYGONS and is_twice:
            yield from ((max(self.width - 1 - down, 0), down, 2 if down < self.height else 1, 1)
                        for down in range(self.height))


def drawers() -> Iterator[Drawer]:
    """Yields a drawer for each opcode that draws."""
    for shapes, code in ((('triangle',), 0x20), (HALVES, 0x28)):
        for look, bits in LOOKS.items():
            yield Drawer(POLYGONS, code | bits, 8, 8, tuple(Kind(POLYGONS, shape, look) for shape in shapes))
    for look in ('flat', 'textured', 'raw'):
        for shape, size in SIZES.items():
            yield Drawer(RECTANGLES, 0x60 | size << 3 | LOOKS[look], SIDES[size], SIDES[size],
                         (Kind(RECTANGLES, shape, look),))
    for shapes, code in ((('line',), 0x40), (SEGMENTS, 0x48)):
        for look in ('flat', 'shaded'):
            yield Drawer(LINES, code | LOOKS[look], 8, 4, tuple(Kind(LINES, shape, look) for shape in shapes))


DRAWERS = tuple(drawers())
FILL, COPY = Kind(TRANSFERS, 'fill'), Kind(TRANSFERS, 'copy')
LOADS = (Kind(TRANSFERS, 'load, low half'), Kind(TRANSFERS, 'load, high half'))
STORES = (Kind(TRANSFERS, 'store, low half'), Kind(TRANSFERS, 'store, high half'))
KINDS = (*(kind for drawer in DRAWERS for kind in drawer.kinds), FILL, COPY, *LOADS, *STORES)


def marks(rules: Iterable[str], *kinds: Kind) -> FrozenSet[Tuple[str, str]]:
    """Returns cells of the table: these rules in these kinds of packet."""
    return frozenset((rule, kind.name) for rule in rules for kind in kinds)
