"""Faults by the table: colours, dither, blending, modulation and the mask setting."""
from __future__ import annotations

from typing import Any

from suite_trials.model.pixels import TABLE
from suite_trials.model.values import channels
from psxgpu.conformance.packets import LINES, POLYGONS
from suite_trials.table_faults import Broken, K, is_drawn, is_raw, shape, where
from psxgpu.conformance.table import BITS, BLENDS

RAW, SEMI = 1 << 24, 1 << 25


def not_dithered(m: K, old: Broken, x: int, y: int, color: Any, texel: int | None, first: int, dithered: bool) -> None:
    """The other way round; a raw texel as one under 80h."""
    if texel is not None and first & RAW:
        color, first = (0x80, 0x80, 0x80), first & ~RAW
    old(m, x, y, color, texel, first, not dithered)


def dithered_fill(m: K, old: Broken, x: int, y: int, value: int) -> None:
    old(m, x, y, value + 0x421 * (m.e1 >> 9 & TABLE[y % 4][x % 4] > 0))


def blended_fill(m: K, old: Broken, x: int, y: int, value: int) -> None:
    old(m, x, y, value if m.get(x, y) == 0 else m.get(x, y))


def flat(m: K, old: Broken, x: int, y: int, color: Any, *rest: Any) -> None:
    """Every pixel has the colour of the first vertex."""
    old(m, x, y, channels(m.first), *rest)


def exchanged(m: K, old: Broken, x: int, y: int, color: Any, *rest: Any) -> None:
    old(m, x, y, color[::-1], *rest)


def raw_or_not(m: K, old: Broken, x: int, y: int, color: Any, texel: int | None, first: int, dithered: bool) -> None:
    old(m, x, y, color, texel, first ^ RAW, dithered)


where('colour', 'red and blue are exchanged', 'pixel', exchanged, is_drawn)
where('colour', 'red and blue are exchanged', 'fill_cell', lambda m, old, x, y, v: old(
    m, x, y, v >> 10 & 31 | v & 0x3E0 | (v & 31) << 10), shape('fill'))
where('bit 15 is cleared', 'it stays', 'plot', lambda m, old, x, y, v: old(m, x, y, v | m.get(x, y) & 0x8000), is_drawn)
where('bit 15 is cleared', 'it stays', 'fill_cell', lambda m, old, x, y, v: old(m, x, y, v | m.get(x, y) & 0x8000),
      shape('fill'))
where('shading', 'there is none', 'pixel', flat, lambda kind: not is_raw(kind))
where('shading', 'raw texels are multiplied', 'pixel', raw_or_not, is_raw)
where('rounding of colours', 'to the nearest', 'mean', lambda m, old, total, area: (2 * total + area) // (2 * area),
      lambda kind: kind.family == POLYGONS and not is_raw(kind))
where('rounding of colours', 'raw texels are multiplied', 'pixel', raw_or_not, is_raw)
where('rounding of colours', 'halves go down', 'along', lambda m, old, i, j, k, n: i - (2 * k * (i - j) + n) // (2 * n),
      lambda kind: kind.family == LINES)
where('rounding of colours', 'down', 'along', lambda m, old, i, j, k, n: i + k * (j - i) // n,
      lambda kind: kind.family == LINES)
where('dither', 'the other way round', 'pixel', not_dithered, is_drawn)
where('dither', 'there is one', 'fill_cell', dithered_fill, shape('fill'))
where('place in the dither table', 'it begins at the drawing area', 'dither',
      lambda m, old, x, y: TABLE[(y - m.area()[1]) % 4][(x - m.area()[0]) % 4])
where('place in the dither table', 'it begins at the offset', 'dither',
      lambda m, old, x, y: TABLE[(y - m.moves()[1]) % 4][(x - m.moves()[0]) % 4])
for _mode, _blend in enumerate(BLENDS):
    where(_blend, 'it covers', 'blend',
          lambda m, old, mode, b, f, this=_mode: f if mode == this else old(m, mode, b, f))
    where(_blend, 'it is the next mode', 'blend',
          lambda m, old, mode, b, f, this=_mode: old(m, (mode + (mode == this)) % 4, b, f))
where('opaque', 'it is blended', 'blends', lambda m, old, first, texel: old(m, first | SEMI, texel), is_drawn)
where('opaque', 'it is blended', 'fill_cell', blended_fill, shape('fill'))
for _depth, _bits in enumerate(BITS):
    where('bit 15 chooses blending, ' + _bits, 'each texel is blended', 'blends',
          lambda m, old, first, texel, d=_depth: (
        bool(first & SEMI) if m.depth() == d else old(m, first, texel)))
    where('bit 15 chooses blending, ' + _bits, 'no texel is blended', 'blends', lambda m, old, first, texel, d=_depth: (
        m.depth() != d and old(m, first, texel)))
where('modulation or raw', 'the other way round', 'pixel', raw_or_not)
where('limit of modulation', 'the product wraps', 'tone', lambda m, old, v: v // 8 & 31, lambda kind: not is_raw(kind))
where('limit of modulation', 'raw texels are multiplied', 'pixel', raw_or_not, is_raw)
where('mask set', 'it is not', 'forced', lambda m, old: 0, lambda kind: kind.shape != 'fill')
where('mask set', 'it is', 'fill_cell', lambda m, old, x, y, v: old(m, x, y, v | m.forced()), shape('fill'))
where('mask kept', 'it is not', 'is_kept', lambda m, old, x, y: False, lambda kind: kind.shape != 'fill')
where('mask kept', 'it is', 'fill_cell', lambda m, old, x, y, v: m.plot(x, y, v), shape('fill'))
