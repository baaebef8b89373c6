"""Where each kind of packet draws: offset, drawing area, the edges of video memory, the bits and the order of
vertices."""
from __future__ import annotations

from typing import List, Sequence, Tuple

from psxgpu.capture import drawing_area, drawing_offset, line
from psxgpu.conformance.across import (DRAWN, NEUTRAL, PITCH, across, expect, mode, page_of, texel_of, texels, under,
                                       varied)
from psxgpu.conformance.chapters import area, cuts, lines, opcodes, polygons
from psxgpu.conformance.packets import DRAWERS, LINES, POLYGONS, RECTANGLES, Drawer
from psxgpu.conformance.suite import FORMULA, OWN, PSX_SPX, Draft, rgb

COLOR = 0x5A9B3C
EDGES = ('left', 'top', 'right', 'bottom')


def loaded(t: Draft) -> None:
    """Loads texels of 15 bits, 16 by 16, that differ."""
    texels(t, 2, 0, 0, 16, 16, varied(2))
    mode(t, page_of(2))


def value(drawer: Drawer, right: int, down: int) -> int:
    """Returns the cell of a box: its texel, or the colour."""
    return texel_of(2, varied(2)(right, down)) if drawer.is_textured else rgb(COLOR)


def words(drawer: Drawer, x: int, y: int) -> List[int]:
    """Returns the packets of a box."""
    return drawer.words(x, y, NEUTRAL if drawer.is_textured else COLOR, page=page_of(2))


def shows(t: Draft, drawer: Drawer, x: int, y: int) -> None:
    """Expects a whole box."""
    expect(t, drawer, x, y, lambda i, j: value(drawer, i, j))


@across(area.CHAPTER, 'offset', 'The drawing offset moves {}, in X and in Y.', ('offset in X', 'offset in Y'),
        before=loaded)
def offset(t: Draft, drawer: Drawer, x: int, y: int) -> None:
    t.before(drawing_offset(-13, 9))
    t.packet(words(drawer, x + 13, y - 9))
    shows(t, drawer, x, y)


def there_and_back(t: Draft, drawer: Drawer, x: int, y: int, corners: List[int]) -> None:
    """Draws the upper two of four lines to the right and the lower two to the left, so that an edge cuts each segment
    of a polyline."""
    x1, y1, x2, y2 = corners
    for down in range(4):
        ends = [x, x + 4, x + 8] if down < 2 else [x + 8, x + 4, x]
        points = [(at, y + down) for at in (ends if len(drawer.kinds) > 1 else ends[::2])]
        t.packet(line(points, [COLOR] * len(points) if drawer.is_shaded else COLOR))
        for at in range(x, x + 9):
            if x1 <= at <= x2 and y1 <= y + down <= y2:
                t.cell(at, y + down, rgb(COLOR))
            elif at < x + 8:
                t.cell(at, y + down, 0x0421)
        t.ignore(*points[-1], 1)


def cut(number: int) -> None:
    """A test of an edge of the drawing area, two cells inside of each box."""
    @across(area.CHAPTER, EDGES[number] + '-edge',
            'The %s edge of the drawing area cuts {}; what is left keeps its texels.'
            % EDGES[number], ('area: ' + EDGES[number],), decides=OWN, before=loaded)
    def one(t: Draft, drawer: Drawer, x: int, y: int) -> None:
        corners = [0, 0, 1023, 511]
        corners[number] = (x + 2, y + 2, x + drawer.width - 3, y + drawer.height - 3)[number]
        t.before(drawing_area(*corners))
        under(t, drawer, x, y, lambda i, j: 0x0421)
        x1, y1, x2, y2 = corners
        if drawer.family == LINES:
            there_and_back(t, drawer, x, y, corners)
            return
        t.packet(words(drawer, x, y))
        expect(t, drawer, x, y, lambda i, j: value(drawer, i, j) if x1 <= x + i <= x2 and y1 <= y + j <= y2 else 0x0421)


for _number in range(4):
    cut(_number)


def crossing(t: Draft, drawer: Drawer, x: int, y: int, is_down: bool) -> None:
    """Draws a line over an edge of video memory, to the right or downward, and beside it one the other way."""
    for number, ends in enumerate(((0, 4, 8), (8, 4, 0))):
        points = [(x + 2 * number, y + at) if is_down else (x + at, y + 2 * number)
                  for at in (ends if len(drawer.kinds) > 1 else ends[::2])]
        t.packet(line(points, [COLOR] * len(points) if drawer.is_shaded else COLOR))
        for at in range(9):
            place = (x + 2 * number, y + at) if is_down else (x + at, y + 2 * number)
            if place[0] >= 0 and 0 <= place[1] <= 511:
                t.cell(*place, rgb(COLOR))
                if place == points[-1] or place[1] == 511:
                    t.ignore(*place, 1)


def over(name: str, side: str, rule: str, x: int, y: int, families: Sequence[str] = DRAWN) -> None:
    """A test of boxes over an edge of video memory: a number that is not 0 is the same for all of them."""
    for family in families:
        some = [drawer for drawer in DRAWERS if drawer.family == family]
        if name == 'right':         # a rectangle of one cell is at X 1023 at most
            some = [drawer for drawer in some if drawer.kinds[0].shape != '1 by 1']

        def write(t: Draft, some: List[Drawer] = some) -> None:
            t.open()
            loaded(t)
            for at, drawer in enumerate(some):
                place = x or PITCH * (1 + at), y or PITCH * (1 + at)
                if drawer.family == LINES:
                    crossing(t, drawer, *place, y != 0)
                    continue
                t.packet(words(drawer, *place))
                shows(t, drawer, *place)
                if drawer.kinds[0].shape == '1 by 1' and x <= 0:         # one beside the box, outside of video memory
                    t.packet(packets(drawer, *((-1, place[1] + 5) if x else (place[0] + 5, -1)))[0])
                if name in ('right', 'bottom'):     # that the drawing area has its last cells is an own rule
                    t.ignore(*((1023, place[1], 1, drawer.height) if x else (place[0], 511, drawer.width, 1)))
        area.CHAPTER.add('%s-of-%s' % (name, family), '%s: what is %s is left out, and the rest keeps its texels.' % (
            family.capitalize(), side), PSX_SPX, FORMULA, write, None,
            frozenset((rule, kind.name) for drawer in some for kind in drawer.kinds))


over('left', 'left of video memory', 'left of X 0', -3, 0)
over('top', 'above video memory', 'above Y 0', 0, -2)
over('right', 'right of video memory', 'right of X 1023', 1020, 0, (RECTANGLES,))
over('bottom', 'below video memory', 'below Y 511', 0, 509)


def with_high_bits(drawer: Drawer, packet: List[int]) -> List[int]:
    """Sets the bits above the eleventh of each vertex in one packet."""
    shaded, textured = int(drawer.is_shaded), int(drawer.is_textured)
    step = 1 + shaded + textured
    last = len(packet) - (1 if packet[-1] == 0x50005000 else 0)
    first_only = drawer.family not in (POLYGONS, LINES)
    places = [1] if first_only else range(1, last, step)
    return [word | 0xF800F800 if at in places else word for at, word in enumerate(packet)]


def packets(drawer: Drawer, x: int, y: int) -> List[List[int]]:
    """Returns the packets of a box one by one."""
    found = words(drawer, x, y)
    count = {POLYGONS: 3 - len(drawer.kinds), LINES: 4}.get(drawer.family, 16 if drawer.opcode & 0x18 == 8 else 1)
    length = len(found) // count
    return [found[at:at + length] for at in range(0, len(found), length)]


@across(opcodes.CHAPTER, 'vertex-bits', 'Of the vertices of {} the bits above the eleventh are dropped.',
        ('bits above the coordinates',), before=loaded)
def vertex_bits(t: Draft, drawer: Drawer, x: int, y: int) -> None:
    t.packet(*(with_high_bits(drawer, packet) for packet in packets(drawer, x, y)))
    shows(t, drawer, x, y)


CONTROL = 0x02000000, 0x03000000, 0x04000000, 0x05000000, 0x06C60260, 0x07040010, 0x08000001, 0x10000007


@across(cuts.CHAPTER, 'control-words', 'GP1(02h) to GP1(08h) and GP1(10h) between its words leave {} whole.',
        ('control words between',), before=loaded)
def control_words(t: Draft, drawer: Drawer, x: int, y: int) -> None:
    for number, packet in enumerate(packets(drawer, x, y)):
        for at, word in enumerate(packet):
            t.packet(word)
            if number == 0 and at < len(packet) - 1:
                t.gp1(CONTROL)
            elif number < 2 and at < len(packet) - 1:
                t.gp1(CONTROL[0])
    shows(t, drawer, x, y)


# The order of the vertices: all that go round a box, or through it.

ORDERS = ((0, 1, 2, 3), (1, 0, 3, 2), (2, 3, 0, 1), (3, 2, 1, 0),
          (0, 2, 1, 3), (2, 0, 3, 1), (1, 3, 0, 2), (3, 1, 2, 0))


@across(polygons.CHAPTER, 'each-order', 'A box is drawn whole in each order of its vertices, by {}.',
        ('order of vertices',),
        (POLYGONS,), before=loaded)
def each_order(t: Draft, drawer: Drawer, x: int, y: int) -> None:
    for number, order in enumerate(ORDERS):         # upside down, from right to left, turned
        left, top = 10 * number + 5 * y, x // 2
        places = [(8 * (at & 1), 8 * (at >> 1)) for at in order]
        t.packet(drawer.polygons([(left + i, top + j) for i, j in places],
                                 [NEUTRAL if drawer.is_textured else COLOR] * 4, places, page_of(2)))
        shows(t, drawer, left, top)


DIRECTIONS: Tuple[Tuple[int, int], ...] = ((1, 0), (1, 1), (0, 1), (-1, 1), (-1, 0), (-1, -1), (0, -1), (1, -1))


@across(lines.CHAPTER, 'each-direction', 'On axes and diagonals {} has one cell for each step, in each direction.',
        ('order of vertices',), (LINES,))
def each_direction(t: Draft, drawer: Drawer, x: int, y: int) -> None:
    for number, (right, down) in enumerate(DIRECTIONS):
        left, top = 8 + 20 * number, 8 + 2 * x + y
        points = [(left + at * right, top + at * down) for at in ((0, 6) if len(drawer.kinds) == 1 else (0, 3, 6))]
        t.packet(line(points, [COLOR] * len(points) if drawer.is_shaded else COLOR))
        for at in range(6):
            t.cell(left + at * right, top + at * down, rgb(COLOR))
        t.ignore(*points[-1], 1)
