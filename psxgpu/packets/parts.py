"""The numbers of a packet: its vertices, colours, texture coordinates, corner and size."""
from typing import Dict, List, NamedTuple, Optional, Sequence, Tuple

from psxgpu.packets.grammar import SHADED, TABLE, TEXTURED

Point = Tuple[int, int]
Registers = Dict[int, int]          # the values of E1h to E6h
SIZES = {1: (1, 1), 2: (8, 8), 3: (16, 16)}


def signed(value: int) -> int:
    """Returns the lowest eleven bits as a number with a sign."""
    return (value & 0x7FF ^ 0x400) - 0x400


def vertex_of(word: int) -> Point:
    """Returns X and Y of a vertex."""
    return signed(word), signed(word >> 16)


def texcoord_of(word: int) -> Point:
    """Returns U and V of a texture coordinate."""
    return word & 0xFF, word >> 8 & 0xFF


class PolygonLayout(NamedTuple):
    """Which words of a polygon are vertices, colours and texture coordinates."""
    vertices: slice
    colors: slice
    texcoords: slice


def layout_of(opcode: int) -> PolygonLayout:
    """Returns the layout of the polygons of an opcode."""
    step = 1 + bool(opcode & SHADED) + bool(opcode & TEXTURED)
    end = TABLE[opcode][1]
    return PolygonLayout(slice(1, end, step), slice(0, end, step) if opcode & SHADED else slice(0, 1),
                         slice(2, end, step) if opcode & TEXTURED else slice(0, 0))


POLYGONS = {opcode: layout_of(opcode) for opcode in range(0x20, 0x40)}


def polygon_words(opcode: int, vertices: Sequence[int], colors: Sequence[int], texcoords: Sequence[int]) -> List[int]:
    """Returns the words of a polygon: its vertices, colours and texture coordinates, each as a word, in their places."""
    words = [0] * TABLE[opcode][1]
    for places, values in zip(POLYGONS[opcode], (vertices, colors, texcoords)):
        words[places] = values
    words[0] |= opcode << 24
    return words


def polygon_parts(words: Sequence[int]) -> Tuple[List[Point], List[int], List[int]]:
    """Returns the vertices of a polygon, and the words of its colours and texture coordinates."""
    vertices, colors, texcoords = POLYGONS[words[0] >> 24]
    return list(map(vertex_of, words[vertices])), list(words[colors]), list(words[texcoords])


def line_parts(words: Sequence[int]) -> Tuple[List[Point], List[int]]:
    """Returns both ends of a segment, and their colours."""
    opcode = words[0] >> 24
    if len(words) == 5:             # a joint of a polyline
        return [vertex_of(words[2]), vertex_of(words[4])], [words[1], words[3]]
    if opcode & SHADED:
        return [vertex_of(words[1]), vertex_of(words[3])], [words[0], words[2]]
    return [vertex_of(words[1]), vertex_of(words[2])], [words[0]] * 2


def rectangle_parts(words: Sequence[int]) -> Tuple[Point, Point, Optional[int]]:
    """Returns the corner and the size of a rectangle, and the word of its texture coordinate or None."""
    opcode = words[0] >> 24
    size = SIZES.get(opcode >> 3 & 3) or (words[-1] & 0x3FF, words[-1] >> 16 & 0x1FF)
    return vertex_of(words[1]), size, words[2] if opcode & TEXTURED else None
