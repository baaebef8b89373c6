"""Lines and polylines."""
from __future__ import annotations

from suite_trials.model.polygons import Polygons
from suite_trials.model.values import Vertex


class Lines(Polygons):
    """Lines."""

    def is_end(self, word: int) -> bool:
        return word & 0xF000F000 == 0x50005000

    def line(self, words: list[int]) -> None:
        shaded = words[0] >> 28 & 1
        start, end, color = words[1], words[-1], words[2] if shaded else words[0]
        self.segment(words[0], words[0], start, color, end)
        if words[0] >> 27 & 1:
            self.joint = [words[0], color, end]

    def joint_word(self, word: int) -> None:
        assert self.joint is not None
        command, color, vertex = self.joint[:3]
        waits_for_color = command >> 28 & 1 and len(self.joint) == 3
        if len(self.joint) == 3 and self.is_end(word):
            self.joint = None
        elif waits_for_color:
            self.joint.append(word)
        else:
            next_color = self.joint[3] if command >> 28 & 1 else color
            self.segment(command, color, vertex, next_color, word)
            self.joint = [command, next_color, word]

    def along(self, start: int, end: int, k: int, n: int) -> int:
        return start + (2 * k * (end - start) + n) // (2 * n)

    def last_point(self, n: int) -> int:
        return n

    def dithers_lines(self) -> bool:
        return True

    def segment(self, command: int, color: int, start: int, next_color: int, end: int) -> None:
        p, q = self.placed(Vertex(start, color)), self.placed(Vertex(end, next_color))
        if not self.is_near((p, q)):
            return
        n = max(abs(q.x - p.x), abs(q.y - p.y))
        for k in range(self.last_point(n) + 1):
            x, y, *shade = ([self.along(i, j, k, n) for i, j in zip((p.x, p.y, *p.color), (q.x, q.y, *q.color))]
                            if n else (p.x, p.y, *p.color))
            if self.is_inside_area(x, y):
                self.pixel(x, y, shade, None, command & ~(1 << 26), self.dithers_lines())
