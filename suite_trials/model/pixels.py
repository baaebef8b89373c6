"""Pixels: dither, modulation, blending and plot."""
from __future__ import annotations

from typing import Any

from suite_trials.model.textures import Textures

TABLE = ((-4, 0, -3, 1), (2, -2, 3, -1), (-3, 1, -4, 0), (3, -1, 2, -2))


class Pixels(Textures):
    """One pixel."""

    def dither(self, x: int, y: int) -> int:
        return TABLE[y % 4][x % 4]

    def tone(self, value: int) -> int:
        return min(max(value, 0), 255) // 8

    def modulated(self, texel: int, color: int) -> int:
        return 8 * texel * color // 128

    def blend(self, mode: int, back: int, front: int) -> int:
        return ((back + front) // 2, min(back + front, 31), max(back - front, 0), min(back + front // 4, 31))[mode]

    def blends(self, first: int, texel: int | None) -> bool:
        return bool(first >> 25 & 1 and (texel is None or texel >> 15))

    def is_drawn(self, texel: int) -> bool:
        return texel != 0

    def top_bit(self, texel: int | None) -> int:
        return (texel or 0) & 0x8000

    def pixel(self, x: int, y: int, color: Any, texel: int | None, first: int, dithered: bool) -> None:
        if texel is not None and not self.is_drawn(texel):
            return
        shift = self.dither(x, y) if dithered and self.e1 >> 9 & 1 else 0
        parts = [] if texel is None else [texel & 31, texel >> 5 & 31, texel >> 10 & 31]
        if texel is None:
            parts = [self.tone(one + shift) for one in color]
        elif not first >> 24 & 1:
            parts = [self.tone(self.modulated(t, c) + shift) for t, c in zip(parts, color)]
        if self.blends(first, texel):
            back = self.get(x, y)
            parts = [self.blend(self.e1 >> 5 & 3, back >> 5 * at & 31, part) for at, part in enumerate(parts)]
        self.plot(x, y, parts[0] | parts[1] << 5 | parts[2] << 10 | self.top_bit(texel))
