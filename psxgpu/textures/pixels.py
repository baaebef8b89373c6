"""Textures as pixels of four bytes, and which are a part of another one."""
from __future__ import annotations

import collections
import hashlib
import struct
import zlib
from typing import Dict, Iterable, List, Optional, Tuple

from psxgpu.image import SIGNATURE, chunk
from psxgpu.vram import wide
from psxgpu.textures.collect import Used
from psxgpu.textures.sources import Source

SEMI, HALF, FULL = 0x8000, 128, 255     # a cell's bit 15, and the alphas of half and whole


class Texture:
    """A texture: four bytes a texel, where it is from, its first event, how many packets drew with it, its file."""

    def __init__(self, source: Source, width: int, height: int, pixels: bytes, event: int) -> None:
        self.source, self.width, self.height, self.pixels, self.event = source, width, height, pixels, event
        self.uses = 0

    @property
    def name(self) -> str:
        """Its file's name: page, bits, palette, first coordinates, and a sum of the pixels."""
        palette = '-p%dx%d' % self.source.palette if self.source.palette else ''
        return '%dx%d-%d%s-u%dv%d-%s.png' % (*self.source.page, self.source.bits, palette, *self.source.box[:2],
                                             hashlib.sha1(self.pixels).hexdigest()[:8])

    def row(self, y: int) -> bytes:
        """Returns the pixels of a row."""
        return self.pixels[4 * self.width * y:4 * self.width * (y + 1)]


def rgba(cell: int, has_half: bool) -> bytes:
    """Returns the pixel of a cell: 0000h is transparent; one with bit 15 is half transparent if `has_half`."""
    if not cell:
        return bytes(4)
    return bytes(wide(cell)) + bytes([HALF if has_half and cell & SEMI else FULL])


def pixels_of(used: Used, has_half: bool) -> Tuple[int, int, bytes]:
    """Returns width, height and pixels."""
    source = used.source
    _, _, w, h = source.cells()
    u1, _, u2, _ = source.box
    width, cells = u2 - u1 + 1, used.texels[:w * h]
    if used.palette is None:
        table = {cell: rgba(cell, has_half) for cell in set(cells)}
        return width, h, b''.join(map(table.__getitem__, cells))
    colors = [rgba(cell, has_half) for cell in used.palette]
    each, most = 16 // source.bits, (1 << source.bits) - 1
    table = {cell: b''.join(colors[cell >> shift & most] for shift in range(0, 16, source.bits))
             for cell in set(cells)}
    skip, rows = 4 * (u1 % each), []
    for y in range(h):
        row = b''.join(map(table.__getitem__, cells[y * w:(y + 1) * w]))
        rows.append(row[skip:skip + 4 * width])
    return width, h, b''.join(rows)


def texture_of(used: Used, has_half: bool) -> Texture:
    """Returns what was used as a texture."""
    texture = Texture(used.source, *pixels_of(used, has_half), used.event)
    texture.uses = used.uses
    return texture


def once_each(textures: Iterable[Texture]) -> List[Texture]:
    """Returns the first of the textures that are alike, in order, with the uses of all. One that is wholly transparent
    is left out."""
    found: Dict[Tuple[int, int, bytes], Texture] = {}
    for texture in textures:
        key = texture.width, texture.height, hashlib.sha1(texture.pixels).digest()
        if key in found:
            found[key].uses += texture.uses
        else:
            found[key] = texture
    return [texture for texture in found.values() if any(texture.pixels[3::4])]


def distinct(all_used: Iterable[Used], has_half: bool) -> List[Texture]:
    """Returns the textures that are not alike and not wholly transparent, in the order of their first use."""
    return once_each(texture_of(used, has_half) for used in all_used)


def is_part(one: Texture, other: Texture) -> bool:
    """Returns whether a texture is a part of another one of the same page and palette."""
    dx, dy = one.source.box[0] - other.source.box[0], one.source.box[1] - other.source.box[1]
    if dx < 0 or dy < 0 or dx + one.width > other.width or dy + one.height > other.height:
        return False
    return all(one.row(y) == other.row(y + dy)[4 * dx:4 * (dx + one.width)] for y in range(one.height))


def without_parts(textures: Iterable[Texture]) -> List[Texture]:
    """Returns the textures that are no part of another one. The uses of a part count for the whole."""
    groups: Dict[Tuple[object, ...], List[Texture]] = collections.defaultdict(list)
    for texture in sorted(textures, key=lambda it: -it.width * it.height):
        group = groups[texture.source.page, texture.source.bits, texture.source.palette]
        whole: Optional[Texture] = next((it for it in group if is_part(texture, it)), None)
        if whole:
            whole.uses += texture.uses
            whole.event = min(whole.event, texture.event)
        else:
            group.append(texture)
    return sorted((it for group in groups.values() for it in group), key=lambda it: it.event)


def png_rgba(width: int, height: int, pixels: bytes) -> bytes:
    """Returns a PNG with alpha."""
    rows = b''.join(b'\0' + pixels[4 * width * y:4 * width * (y + 1)] for y in range(height))
    head = struct.pack('>IIBBBBB', width, height, 8, 6, 0, 0, 0)
    return bytes(SIGNATURE + chunk(b'IHDR', head) + chunk(b'IDAT', zlib.compress(rows, 6)) + chunk(b'IEND', b''))
