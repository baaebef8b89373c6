"""The drawing area, the drawing offset, the size rule and polygons."""
from __future__ import annotations

from suite_trials.model.pixels import Pixels
from suite_trials.model.values import Box, Vertex, edge, signed


class Polygons(Pixels):
    """Polygons."""

    def area(self) -> Box:
        return (self.top_left & 0x3FF, self.top_left >> 10, self.bottom_right & 0x3FF, self.bottom_right >> 10)

    def is_inside_area(self, x: int, y: int) -> bool:
        x1, y1, x2, y2 = self.area()
        return x1 <= x <= x2 and y1 <= y <= y2

    def moves(self) -> tuple[int, int]:
        return signed(self.offset), signed(self.offset >> 11)

    def placed(self, vertex: Vertex) -> Vertex:
        return vertex.moved(*self.moves())

    def is_near(self, points: tuple[Vertex, ...]) -> bool:
        xs, ys = [p.x for p in points], [p.y for p in points]
        return max(xs) - min(xs) <= 1023 and max(ys) - min(ys) <= 511

    def polygon(self, words: list[int]) -> None:
        first, at, vertices, extra = words[0], 1, [], []
        color = first
        for point in range(4 if first >> 27 & 1 else 3):
            if point and first >> 28 & 1:
                color, at = words[at], at + 1
            texcoord = words[at + 1] if first >> 26 & 1 else 0
            vertices.append(Vertex(words[at], color, texcoord))
            extra.append(texcoord >> 16)
            at += 1 + (first >> 26 & 1)
        if first >> 26 & 1:
            self.bring_page(extra[1])
        for points in self.halves_of(vertices):
            if self.is_near(points):
                self.triangle(first, points, extra[0])

    def halves_of(self, vertices: list[Vertex]) -> list[tuple[Vertex, ...]]:
        return [tuple(vertices[at:at + 3]) for at in range(len(vertices) - 2)]

    def page_bits(self) -> int:
        return 0x9FF if self.tall else 0x1FF

    def bring_page(self, attribute: int) -> None:
        self.e1 = self.e1 & ~self.page_bits() | attribute & self.page_bits()

    def is_in(self, value: int, p: Vertex, q: Vertex) -> bool:
        return value > 0 or value == 0 and (q.y < p.y or q.y == p.y and q.x > p.x)

    def mean(self, total: int, area: int) -> int:
        return total // area

    def texel_mean(self, total: int, area: int) -> int:
        return total // area

    def triangle(self, first: int, points: tuple[Vertex, ...], clut: int) -> None:
        a, b, c = map(self.placed, points)
        area = edge(a, b, c.x, c.y)
        if area < 0:
            a, b, c, area = a, c, b, -area
        if not area:
            return
        x1, y1, x2, y2 = self.area()
        for y in range(max(y1, min(a.y, b.y, c.y)), min(y2, max(a.y, b.y, c.y)) + 1):
            for x in range(max(x1, min(a.x, b.x, c.x)), min(x2, max(a.x, b.x, c.x)) + 1):
                weights = edge(b, c, x, y), edge(c, a, x, y), edge(a, b, x, y)
                if not (self.is_in(weights[0], b, c) and self.is_in(weights[1], c, a) and self.is_in(weights[2], a, b)):
                    continue
                color = [self.mean(weights[0] * i + weights[1] * j + weights[2] * k, area)
                         for i, j, k in zip(a.color, b.color, c.color)]
                texel = None
                if first >> 26 & 1:
                    u, v = (self.texel_mean(sum(w * t for w, t in zip(weights, coords)), area)
                            for coords in ((a.u, b.u, c.u), (a.v, b.v, c.v)))
                    texel = self.texel(u & 255, v & 255, clut)
                self.pixel(x, y, color, texel, first, self.dithers_polygon(first))

    def dithers_polygon(self, first: int) -> bool:
        textured, raw = first >> 26 & 1, first >> 24 & 1
        return bool(textured and not raw or not textured and first >> 28 & 1)
