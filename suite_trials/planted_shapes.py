"""Planted faults: polygons, lines, colours."""
from __future__ import annotations

from collections.abc import Callable
from typing import Any

from suite_trials.model import Machine
from suite_trials.model.pixels import TABLE
from suite_trials.planted import M, fault


def polygon_page_with_dither(m: Machine) -> int:
    return 0x3FF


def near(width: int, height: int) -> Callable[..., bool]:
    return lambda m, points: bool(max(p.x for p in points) - min(p.x for p in points) <= width
                                  and max(p.y for p in points) - min(p.y for p in points) <= height)


def raw_dithered(m: Machine, x: int, y: int, color: Any, texel: int | None, first: int, dithered: bool) -> None:
    """A raw texel as one under 80h, dithered."""
    if texel is not None and first >> 24 & 1:
        color, first = (0x80, 0x80, 0x80), first & ~(1 << 24)
    M.pixel(m, x, y, color, texel, first, dithered)


def halved_first(m: Machine, x: int, y: int, color: Any, texel: int | None, first: int, dithered: bool) -> None:
    """Adds the half of a cell to a texel whose channels were halved before they are multiplied."""
    if texel is not None and not first >> 24 & 1 and m.e1 >> 5 & 3 == 0 and m.blends(first, texel):
        half = texel >> 1 & 0x3DEF
        tones = [M.tone(m, M.modulated(m, half >> 5 * k & 31, color[k])) for k in range(3)]
        back = m.get(x, y)
        mean = sum(min(31, (back >> 5 * k & 31) // 2 + tone) << 5 * k for k, tone in enumerate(tones))
        m.plot(x, y, mean | texel & 0x8000)
        return
    M.pixel(m, x, y, color, texel, first, dithered)


# Polygons and lines.
fault('cells on a right edge are drawn, those on a left one not', 'polygons',
      is_in=lambda m, v, p, q: v > 0 or v == 0 and (q.y > p.y or q.y == p.y and q.x > p.x))
fault('cells on a lower edge are drawn, too', 'polygons', is_in=lambda m, v, p, q: M.is_in(m, v, p, q)
      or v == 0 and q.y == p.y)
fault('the size rule allows a width of 1024', 'polygons lines', is_near=near(1024, 511))
fault('the size rule allows a height of 512', 'polygons lines', is_near=near(1023, 512))
fault('the size rule refuses a width of 1023', 'polygons lines', is_near=near(1022, 511))
fault('a quad\'s second half is 1-3-4', 'polygons', halves_of=lambda m, v: [tuple(v[:3]), (v[0], *v[2:])]
      if len(v) > 3 else [tuple(v)])
fault('the second half of a quad is drawn first', 'polygons', halves_of=lambda m, v: M.halves_of(m, v)[::-1])
fault('a polygon\'s page takes the dither bit, too', 'polygons', page_bits=polygon_page_with_dither)
fault('a polygon does not bring its page', 'polygons', bring_page=lambda m, attribute: None)
fault('a line\'s last point is left out', 'lines', last_point=lambda m, n: n - 1)
fault('a line\'s halves go down', 'lines', along=lambda m, i, j, k, n: i - ((2 * k * (i - j) + n) // (2 * n)))
fault('lines are not dithered', 'dither', dithers_lines=lambda m: False)
fault('55555555h alone ends a polyline', 'lines', is_end=lambda m, word: word == 0x55555555)
fault('any word with 5h at the top ends a polyline', 'lines', is_end=lambda m, word: word >> 28 == 5)
# Colours.
fault('colours of polygons are rounded to the nearest', 'gouraud', mean=lambda m, t, a: (2 * t + a) // (2 * a))
fault('texture coordinates of polygons are rounded to the nearest', 'textures',
      texel_mean=lambda m, t, a: (2 * t + a) // (2 * a))
fault('the dither table is transposed', 'dither', dither=lambda m, x, y: TABLE[x % 4][y % 4])
fault('one cell of the dither table is wrong', 'dither',
      dither=lambda m, x, y: TABLE[y % 4][x % 4] + (x % 4 == 2 and y % 4 == 3))
fault('the dither table moves with the drawing offset', 'dither',
      dither=lambda m, x, y: TABLE[(y - m.moves()[1]) % 4][(x - m.moves()[0]) % 4])
fault('a channel is not brought into 0 to 255', 'dither', tone=lambda m, v: v // 8 & 31)
fault('flat polygons are dithered', 'dither', dithers_polygon=lambda m, first: True)
fault('raw textures are dithered', 'dither', dithers_polygon=lambda m, first: bool(first >> 26 & 1 or first >> 28 & 1),
      modulated=M.modulated, pixel=lambda m, x, y, c, t, f, d: raw_dithered(m, x, y, c, t, f, d))
fault('modulation divides before the product', 'modulation', modulated=lambda m, t, c: 8 * t * (c // 8) // 16)
fault('modulation divides by 256', 'modulation', modulated=lambda m, t, c: 8 * t * c // 256)
fault('B/2 + F/2 halves each', 'blending',
      blend=lambda m, mode, b, f: b // 2 + f // 2 if mode == 0 else M.blend(m, mode, b, f))
fault('B + F wraps', 'blending', blend=lambda m, mode, b, f: b + f & 31 if mode == 1 else M.blend(m, mode, b, f))
fault('B - F is F - B', 'blending', blend=lambda m, mode, b, f: max(f - b, 0) if mode == 2 else M.blend(m, mode, b, f))
fault('B + F/4 is B + F/2', 'blending',
      blend=lambda m, mode, b, f: min(b + f // 2, 31) if mode == 3 else M.blend(m, mode, b, f))
fault('textures are blended without bit 15', 'blending', blends=lambda m, first, texel: bool(first >> 25 & 1))
fault('bit 15 of the texel is dropped', 'mask modulation', top_bit=lambda m, texel: 0)
fault('bit 15 is forced before the blending looks', 'mask blending',
      blends=lambda m, first, texel: bool(first >> 25 & 1 and (texel is None or texel >> 15 or m.mask & 1)))
fault('the mask test looks at what is drawn', 'mask', is_kept=lambda m, x, y: False)
fault('bit 15 is not forced', 'mask', forced=lambda m: 0)
fault('a forced bit 15 keeps cells, too', 'mask', is_kept=lambda m, x, y: bool(m.mask & 3 and m.get(x, y) & 0x8000))
fault('a line steps by a part of twelve bits', 'lines',
      along=lambda m, i, j, k, n: ((i << 12) + 2048 + k * int((j - i) * 4096 / n)) >> 12 if n else i)
fault('colours of polygons are divided by a reciprocal of twelve bits', 'gouraud',
      mean=lambda m, t, a: t * (4096 // a) // 4096)
fault('the texel of B/2 + F/2 is halved before it is multiplied', 'blending', pixel=halved_first)
