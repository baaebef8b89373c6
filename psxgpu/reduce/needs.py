"""What a packet reads and writes of video memory, as boxes (x, y, width, height): a guess that a probe confirms."""
from __future__ import annotations

from typing import List, Sequence, Tuple

from psxgpu.packets.parts import line_parts, polygon_parts, rectangle_parts, signed
from psxgpu.packets.grammar import COPY, FILL, LINE, LOAD, POLYGON, RECTANGLE, SEMI, STORE, cells_of, fill_box
from psxgpu.packets.texels import Box, Registers, texture_of

KEEP = 2        # the bit of E6h that keeps cells whose bit 15 is 1
DRAWN = (POLYGON, RECTANGLE, LINE)
SEGMENT = 5     # words of a line up to its second vertex; a longer polyline is not looked into


def offset_of(registers: Registers) -> Tuple[int, int]:
    """Returns the drawing offset."""
    return signed(registers[0xE5]), signed(registers[0xE5] >> 11)


def hull(points: Sequence[Tuple[int, int]], registers: Registers) -> List[Box]:
    """Returns the box that holds points at the drawing offset, cut by the drawing area; nothing if it is empty."""
    dx, dy = offset_of(registers)
    left, top = registers[0xE3] & 0x3FF, registers[0xE3] >> 10 & 0x3FF
    right, bottom = registers[0xE4] & 0x3FF, registers[0xE4] >> 10 & 0x3FF
    x1, y1 = max(left, min(x for x, _ in points) + dx), max(top, min(y for _, y in points) + dy)
    x2, y2 = min(right, max(x for x, _ in points) + dx), min(bottom, max(y for _, y in points) + dy)
    return [(x1, y1, x2 - x1 + 1, y2 - y1 + 1)] if x1 <= x2 and y1 <= y2 else []


def transfer_box(place: int, size: int) -> Box:
    """Returns the box of a transfer's corner and size."""
    w, h = cells_of(size)
    return place & 0x3FF, place >> 16 & 0x3FF, w, h


def target_of(name: str, words: Sequence[int], registers: Registers) -> List[Box]:
    """Returns the boxes that a packet may write."""
    if name == POLYGON:
        return hull(polygon_parts(words)[0], registers)
    if name == LINE:
        return hull(line_parts(words)[0], registers) if len(words) <= SEGMENT else []
    if name == RECTANGLE:
        (x, y), (w, h), _ = rectangle_parts(words)
        return hull([(x, y), (x + w - 1, y + h - 1)], registers) if w and h else []
    if name == FILL:
        return [fill_box(words)]
    if name in (COPY, LOAD):
        return [transfer_box(words[2 if name == COPY else 1], words[3 if name == COPY else 2])]
    return []


def sources_of(name: str, words: Sequence[int], registers: Registers) -> List[Box]:
    """Returns the boxes that a packet may read, its target among them if it blends or keeps cells."""
    if name in (COPY, STORE):
        boxes = [transfer_box(words[1], words[3 if name == COPY else 2])]
    else:
        boxes = texture_of(name, words, registers)
    blends = name in DRAWN and bool(words[0] >> 24 & SEMI)
    if blends or registers[0xE6] & KEEP:
        boxes = boxes + target_of(name, words, registers)
    return boxes
