"""Numbers of eleven bits, colours, vertices, and the value of an edge."""
from __future__ import annotations

import copy
from typing import Tuple

Box = Tuple[int, int, int, int]
Triple = Tuple[int, int, int]


def signed(word: int) -> int:
    """Eleven bits with a sign."""
    return (word & 0x7FF ^ 0x400) - 0x400


def channels(color: int) -> Triple:
    return color & 0xFF, color >> 8 & 0xFF, color >> 16 & 0xFF


class Vertex:
    def __init__(self, word: int, color: int = 0, texcoord: int = 0) -> None:
        self.word = word
        self.x, self.y = signed(word), signed(word >> 16)
        self.color, self.u, self.v = channels(color), texcoord & 0xFF, texcoord >> 8 & 0xFF

    def moved(self, x: int, y: int) -> Vertex:
        other = copy.copy(self)
        other.x, other.y = self.x + x, self.y + y
        return other


def edge(a: Vertex, b: Vertex, x: int, y: int) -> int:
    return (b.x - a.x) * (y - a.y) - (b.y - a.y) * (x - a.x)
