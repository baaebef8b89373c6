"""Texture windows, pages, palettes and texels."""
from __future__ import annotations

from suite_trials.model.transfers import Transfers


class Textures(Transfers):
    """Texels, read from video memory as it is."""

    def windowed(self, at: int, mask: int, offset: int) -> int:
        return at & ~(8 * mask) | 8 * (offset & mask)

    def window_fields(self) -> tuple[int, int, int, int]:
        """The masks of U and V, and their offsets."""
        return self.window & 31, self.window >> 5 & 31, self.window >> 10 & 31, self.window >> 15

    def page_place(self) -> tuple[int, int]:
        return 64 * (self.e1 & 15), 256 * (self.e1 >> 4 & 1) + 512 * (self.e1 >> 11 & 1)

    def palette_place(self, clut: int) -> tuple[int, int]:
        return 16 * (clut & 63), clut >> 6 & 0x1FF

    def palette_entry(self, clut: int, index: int) -> int:
        x, y = self.palette_place(clut)
        return self.get(x + index, y)

    def texel_cell(self, x: int, y: int) -> int:
        return self.get(x, y)

    def index(self, value: int, u: int, depth: int) -> int:
        return value >> 8 * (u & 1) & 255 if depth else value >> 4 * (u & 3) & 15

    def texel(self, u: int, v: int, clut: int) -> int:
        mask_u, mask_v, offset_u, offset_v = self.window_fields()
        u, v = self.windowed(u, mask_u, offset_u), self.windowed(v, mask_v, offset_v)
        (x, y), depth = self.page_place(), self.e1 >> 7 & 3
        if depth > 1:
            return self.texel_cell(x + u, y + v)
        return self.palette_entry(clut, self.index(self.texel_cell(x + (u >> 2 - depth), y + v), u, depth))
