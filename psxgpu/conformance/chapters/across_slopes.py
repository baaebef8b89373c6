"""Rules of this project for each kind of polygon and of line: the cells of a slope, and how attributes are rounded."""
from __future__ import annotations

from typing import Iterator, List, Tuple

from psxgpu.capture import line
from psxgpu.conformance.across import NEUTRAL, across, expect, mode, page_of, texels, varied
from psxgpu.conformance.chapters import gouraud, lines, polygons, textures
from psxgpu.conformance.packets import LINES, POLYGONS, Drawer
from psxgpu.conformance.suite import OWN, Draft, cell, rgb

COLOR = 0x5A9B3C
Point = Tuple[int, int]
HALVES = (((-8, 0), (8, 0), (8, 16)), ((8, 0), (8, 16), (-8, 32)))
LOWER_EDGES = (((-8, 16), (8, 16), (8, 0)), ((8, 16), (8, 0), (24, 16)))


def edge(a: Point, b: Point, x: int, y: int) -> int:
    return (b[0] - a[0]) * (y - a[1]) - (b[1] - a[1]) * (x - a[0])


def covered(a: Point, b: Point, c: Point) -> Iterator[Point]:
    """Yields the cells of a triangle: those inside, and those on a left or on an upper edge."""
    if edge(a, b, *c) < 0:
        b, c = c, b
    for y in range(min(a[1], b[1], c[1]), max(a[1], b[1], c[1])):
        for x in range(min(a[0], b[0], c[0]), max(a[0], b[0], c[0])):
            if all(edge(p, q, x, y) > 0 or edge(p, q, x, y) == 0 and (q[1] < p[1] or q[1] == p[1] and q[0] > p[0])
                   for p, q in ((a, b), (b, c), (c, a))):
                yield x, y


def plain(t: Draft) -> None:
    """Loads texels of one value."""
    texels(t, 2, 0, 0, 8, 8, lambda u, v: rgb(COLOR))
    mode(t, page_of(2))


@across(polygons.CHAPTER, 'slopes', 'The cells on a left or an upper edge are drawn, whole and over an edge, by {}.',
        ('cells of a slope', 'left of X 0', 'above Y 0'), (POLYGONS,), OWN, before=plain)
def slopes(t: Draft, drawer: Drawer, x: int, y: int) -> None:
    at = x // 20 + 6 * (y // 20)
    for left, top, halves in ((0, 40 * at + 20, HALVES), (40, 40 * at + 20, HALVES), (80, 40 * at + 20, LOWER_EDGES),
                              (140 + 20 * at, -9, HALVES)):
        corners = [(left + i, top + j) for i, j in (*halves[0], halves[1][2])]
        t.packet(drawer.polygons(corners, [NEUTRAL if drawer.is_textured else COLOR] * 4, [(0, 0)] * 4, page_of(2)))
        for half in halves:
            for i, j in covered(*half):
                if left + i >= 0 and top + j >= 0:
                    t.cell(left + i, top + j, rgb(COLOR))


def nearest(first: int, last: int, at: int, steps: int) -> int:
    """Returns a number between two, halves upward."""
    return first + (2 * at * (last - first) + steps) // (2 * steps)


SLOPES = (7, 3), (3, 7), (-7, 3), (-3, 7), (7, -3), (3, -7), (4, 2), (2, 4)


@across(lines.CHAPTER, 'slopes', 'Each point of {} has the nearest coordinates, halves upward.', ('cells of a slope',),
        (LINES,), OWN)
def slopes_of_lines(t: Draft, drawer: Drawer, x: int, y: int) -> None:
    for number, (right, down) in enumerate(SLOPES):
        left, top = 20 + 40 * number, 20 + 2 * x + y
        places = [(left + at * right, top + at * down) for at in range(1 + len(drawer.kinds))]
        t.packet(line(places, [COLOR] * len(places) if drawer.is_shaded else COLOR))
        for (x1, y1), (x2, y2) in zip(places, places[1:]):
            steps = max(abs(x2 - x1), abs(y2 - y1))
            for at in range(steps + 1):
                t.cell(nearest(x1, x2, at, steps), nearest(y1, y2, at, steps), rgb(COLOR))


# Attributes: a plane over a box of 8 by 8, whose value is exact at three of its corners.

def plane(first: int, right: int, down: int, i: int, j: int) -> int:
    """Returns the exact value, rounded down. `right` and `down`: at the corners beside the first one."""
    return (8 * first + i * (right - first) + j * (down - first)) // 8


CHANNELS = (0x40, 0xB3, 0x25), (0x91, 0xF5, 0x5A), (0x87, 0x18, 0xC6)       # at the first corner, right, below


@across(gouraud.CHAPTER, 'exact', 'A channel is the exact mean, rounded down, in {} that is shaded.',
        ('rounding of colours',),
        (POLYGONS,), OWN, only=lambda drawer: drawer.is_shaded,
        before=lambda t: texels(t, 2, 0, 0, 8, 8, lambda u, v: cell(16, 16, 16)))
def exact(t: Draft, drawer: Drawer, x: int, y: int) -> None:
    corners = [(i, j) for j in (0, 8) for i in (0, 8)]
    colors = [sum(plane(*channel, i, j) << 8 * at for at, channel in enumerate(CHANNELS)) for i, j in corners]
    t.packet(drawer.polygons([(x + i, y + j) for i, j in corners], colors, [(0, 0)] * 4, page_of(2)))
    expect(t, drawer, x, y, lambda i, j: cell(16, 16, 16) if drawer.is_raw else cell(
        *[plane(*channel, i, j) // 8 for channel in CHANNELS]))


@across(gouraud.CHAPTER, 'nearest', 'A channel is the nearest, halves upward, in {} that is shaded.',
        ('rounding of colours',), (LINES,), OWN, only=lambda drawer: drawer.is_shaded)
def nearest_of_lines(t: Draft, drawer: Drawer, x: int, y: int) -> None:
    ends = 0x071F34, 0xF805A2, 0x10F10F         # red: where halves go decides its cell
    points = [(x + 12 * at, y + x) for at in range(1 + len(drawer.kinds))]
    t.packet(line(points, list(ends[:len(points)])))
    for at in range(12 * len(drawer.kinds) + 1):
        part = min(at // 12, len(drawer.kinds) - 1)
        first, last = ends[part], ends[part + 1]
        t.cell(x + at, y + x, cell(*[nearest(first >> shift & 255, last >> shift & 255, at - 12 * part, 12) // 8
                                     for shift in (0, 8, 16)]))


def mapped(name: str, says: str, first: int, other: int) -> None:
    """A test of polygons whose U goes from one number to another over eight cells, and V the same downward."""
    @across(textures.CHAPTER, name, says, ('rounding of U and V',), (POLYGONS,), OWN,
            only=lambda drawer: drawer.is_textured, section='GPU Render Polygon Commands',
            before=lambda t: texels(t, 2, 0, 0, 16, 16, varied(2)))
    def one(t: Draft, drawer: Drawer, x: int, y: int) -> None:
        corners: List[Point] = [(i, j) for j in (0, 8) for i in (0, 8)]
        coords = [(plane(first, other, first, i, j), plane(first, first, other, i, j)) for i, j in corners]
        t.packet(drawer.polygons([(x + i, y + j) for i, j in corners], [NEUTRAL] * 4, coords, page_of(2)))
        expect(t, drawer, x, y, lambda i, j: varied(2)(plane(first, other, first, i, j),
                                                       plane(first, first, other, i, j)))


mapped('double-size', 'At double size U and V are exact, rounded down, in {}.', 2, 6)
mapped('turned-round', 'Mapped from right to left and upside down U and V are exact, rounded down, in {}.', 13, 2)
