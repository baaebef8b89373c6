"""Which texels and cells a packet reads, by its fields."""
from __future__ import annotations

from typing import Dict, List, Sequence, Tuple

from psxgpu.packets.parts import polygon_parts, rectangle_parts, texcoord_of
from psxgpu.packets.grammar import POLYGON, RECTANGLE, TEXTURED

Box = Tuple[int, int, int, int]             # x, y, width, height in cells
Registers = Dict[int, int]                  # the values of E1h to E6h
PALETTE_CELLS = (16, 256)                   # by depth
SHIFTS = (2, 1, 0, 0)                       # texels of a cell by depth, as a power of two
WINDOW = 0xFFFFF                            # the bits of E2h


def page_corner(page: int) -> Tuple[int, int]:
    """Returns the first cell of a texture page, from the bits of E1h."""
    return (page & 15) * 64, (page >> 4 & 1) * 256 + (page >> 11 & 1) * 512


def palette_corner(attribute: int) -> Tuple[int, int]:
    """Returns the first cell of a palette."""
    return (attribute & 63) * 16, attribute >> 6 & 511


def rectangle_span(at: int, size: int, is_flipped: bool) -> Tuple[int, int]:
    """Returns the least and the greatest texture coordinate of a rectangle's row or column: all, if they wrap."""
    first, last = (at - size + 1, at) if is_flipped else (at, at + size - 1)
    return (0, 255) if last > 255 or first < 0 else (first, last)


def is_textured(name: str, words: Sequence[int]) -> bool:
    """Returns whether a packet reads texels."""
    return name in (POLYGON, RECTANGLE) and bool(words[0] >> 24 & TEXTURED)


def texture_boxes(us: Tuple[int, int], vs: Tuple[int, int], palette: int, registers: Registers) -> List[Box]:
    """Returns the cells of texels from `us` and `vs` (least and greatest), and those of the palette."""
    page = registers[0xE1]
    depth = page >> 7 & 3
    shift = SHIFTS[depth]
    x, y = page_corner(page)
    if registers[0xE2] & WINDOW:
        us, vs = (0, 255), (0, 255)
    first, last = us[0] >> shift, us[1] >> shift
    boxes = [(x + first, y + vs[0], last - first + 1, vs[1] - vs[0] + 1)]
    if depth < len(PALETTE_CELLS):
        boxes.append((*palette_corner(palette), PALETTE_CELLS[depth], 1))
    return boxes


def texture_of(name: str, words: Sequence[int], registers: Registers) -> List[Box]:
    """Returns the boxes of cells that a textured packet may read, its texels first; none for others.

    `registers` are those after its words. The texels of a polygon are those from the least to the greatest coordinate,
    and one more at each end: players round them differently."""
    if not is_textured(name, words):
        return []
    if name == POLYGON:
        _, _, coords = polygon_parts(words)
        us, vs = ((min(255, max(values) + 1), min(values)) for values in zip(*map(texcoord_of, coords)))
        return texture_boxes((us[1], us[0]), (vs[1], vs[0]), coords[0] >> 16, registers)
    _, (w, h), coord = rectangle_parts(words)
    if coord is None or not w or not h:
        return []
    u, v = texcoord_of(coord)
    mode = registers[0xE1]
    return texture_boxes(rectangle_span(u, w, bool(mode >> 12 & 1)), rectangle_span(v, h, bool(mode >> 13 & 1)),
                         coord >> 16, registers)
