"""Where a packet takes its texels from."""
from __future__ import annotations

from typing import Dict, List, NamedTuple, Optional, Sequence, Tuple

from psxgpu.packets.parts import polygon_parts, rectangle_parts, texcoord_of
from psxgpu.packets.fields import window_text
from psxgpu.packets.grammar import POLYGON
from psxgpu.packets.texels import WINDOW, is_textured, page_corner, palette_corner, rectangle_span

Box = Tuple[int, int, int, int]     # x, y, width, height
Span = Tuple[int, int]              # least and greatest coordinate
BITS = (4, 8, 15, 15)               # of a texel, by depth
STEP = 8                            # a distance that is a multiple of it ends at the edge after the last texel


class Source(NamedTuple):
    """Page corner, bits of a texel, palette corner or None, texture window, and the least and greatest coordinates
    (u1, v1, u2, v2)."""
    page: Tuple[int, int]
    bits: int
    palette: Optional[Tuple[int, int]]
    window: int
    box: Tuple[int, int, int, int]

    def cells(self) -> Box:
        """Returns the cells of the texels."""
        u1, v1, u2, v2 = self.box
        each = 16 // self.bits
        return self.page[0] + u1 // each, self.page[1] + v1, u2 // each - u1 // each + 1, v2 - v1 + 1

    def boxes(self) -> List[Box]:
        """Returns the cells of the texels, then those of the palette."""
        return [self.cells()] + ([(*self.palette, 1 << self.bits, 1)] if self.palette else [])

    def text(self) -> str:
        """Returns it in words."""
        u1, v1, u2, v2 = self.box
        parts = ['page (%d, %d) of %d bits' % (*self.page, self.bits)]
        if self.palette:
            parts.append('palette (%d, %d)' % self.palette)
        parts += window_text(self.window)
        return ', '.join(parts + ['u %d to %d, v %d to %d' % (u1, u2, v1, v2)])


def polygon_span(values: Sequence[int]) -> Span:
    """Returns the coordinates of a polygon, from the least to the greatest. The greatest is left out if it seems to be
    the edge after the last texel: if the distance is a multiple of eight."""
    low, high = min(values), max(values)
    return (low, high - 1) if high > low and (high - low) % STEP == 0 else (low, high)


def windowed(span: Span, mask: int, offset: int) -> Span:
    """Returns the least and the greatest coordinate that a texture window makes of those of a span."""
    if not mask:
        return span
    seen = {value & ~(8 * mask) & 255 | 8 * (offset & mask) for value in range(span[0], span[1] + 1)}
    return min(seen), max(seen)


def source_of(name: str, words: Sequence[int], registers: Dict[int, int]) -> Optional[Source]:
    """Returns what a packet takes its texels from; None if it takes none. `registers`: those after its words."""
    if not is_textured(name, words):
        return None
    page, window = registers[0xE1], registers[0xE2] & WINDOW
    if name == POLYGON:
        _, _, coords = polygon_parts(words)
        us, vs = (polygon_span(values) for values in zip(*map(texcoord_of, coords)))
        attribute = coords[0] >> 16
    else:
        _, (w, h), coord = rectangle_parts(words)
        if coord is None or not w or not h:
            return None
        u, v = texcoord_of(coord)
        us, vs = rectangle_span(u, w, bool(page >> 12 & 1)), rectangle_span(v, h, bool(page >> 13 & 1))
        attribute = coord >> 16
    us = windowed(us, window & 31, window >> 10 & 31)
    vs = windowed(vs, window >> 5 & 31, window >> 15 & 31)
    bits = BITS[page >> 7 & 3]
    palette = palette_corner(attribute) if bits < 15 else None
    return Source(page_corner(page), bits, palette, window, (us[0], vs[0], us[1], vs[1]))
