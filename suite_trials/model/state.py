"""What the machine holds: registers, unfinished words, video memory and main memory."""
from __future__ import annotations

import array
from collections.abc import Callable, Iterator
from types import MethodType
from typing import Any

WIDTH = 1024


class State:
    """All that a word, a read or a start can change. `changes`: methods that are replaced."""

    def __init__(self, tall: bool = False, **changes: Callable[..., Any]) -> None:
        self.tall, self.rows = tall, 1024 if tall else 512
        for name, function in changes.items():
            if not hasattr(self, name):
                raise ValueError('%s: no method of the model' % name)
            setattr(self, name, MethodType(function, self))
        self.cells = array.array('H', bytes(2 * WIDTH * self.rows))
        self.memory: dict[int, int] = {}
        self.latch = 0
        self.run: Iterator[None] | None = None
        self.start_clean()
        self.reset()

    def reset(self) -> None:
        self.e1 = self.window = self.top_left = self.bottom_right = self.offset = self.mask = 0
        self.interrupt, self.off = 0, 1
        self.direction = self.start = self.mode = 0
        self.horizontal, self.vertical = 0xC00200, 0x100 << 10 | 0x10

    def start_clean(self) -> None:
        """Nothing is unfinished."""
        self.words: list[int] = []
        self.loading: Iterator[tuple[int, int]] | None = None
        self.left = 0
        self.joint: list[int] | None = None             # command, colour, vertex, and a colour that came
        self.storing: list[tuple[int, int]] | None = None
        self.stored = 0

    def put(self, x: int, y: int, value: int) -> None:
        self.cells[WIDTH * (y % self.rows) + x % WIDTH] = value

    def get(self, x: int, y: int) -> int:
        return self.cells[WIDTH * (y % self.rows) + x % WIDTH]

    def forced(self) -> int:
        return (self.mask & 1) << 15

    def is_kept(self, x: int, y: int) -> bool:
        return bool(self.mask & 2 and self.get(x, y) & 0x8000)

    def plot(self, x: int, y: int, value: int) -> None:
        if not self.is_kept(x, y):
            self.put(x, y, value | self.forced())
