"""Rectangles."""
from __future__ import annotations

from suite_trials.model.lines import Lines
from suite_trials.model.values import Vertex, channels


class Rectangles(Lines):
    """Rectangles."""

    def rectangle_size(self, size: int) -> tuple[int, int]:
        return size & 0x3FF, size >> 16 & 0x1FF

    def flips(self) -> tuple[int, int]:
        return self.e1 >> 12 & 1, self.e1 >> 13 & 1

    def texture_place(self, u: int, v: int, right: int, down: int) -> tuple[int, int]:
        flip_x, flip_y = self.flips()
        return (u - right if flip_x else u + right) & 255, (v - down if flip_y else v + down) & 255

    def dithers_rectangles(self) -> bool:
        return False

    def rectangle(self, words: list[int]) -> None:
        first = words[0]
        corner = self.placed(Vertex(words[1], first, words[2] if first >> 26 & 1 else 0))
        code = first >> 27 & 3
        width, height = ((0, 1, 8, 16)[code],) * 2 if code else self.rectangle_size(words[-1])
        x1, y1, x2, y2 = self.area()
        for down in range(max(0, y1 - corner.y), min(height, y2 - corner.y + 1)):
            for right in range(max(0, x1 - corner.x), min(width, x2 - corner.x + 1)):
                texel = None
                if first >> 26 & 1:
                    texel = self.texel(*self.texture_place(corner.u, corner.v, right, down), words[2] >> 16)
                self.pixel(corner.x + right, corner.y + down, channels(first), texel, first, self.dithers_rectangles())
