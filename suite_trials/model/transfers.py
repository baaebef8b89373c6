"""Fills, copies, loads, stores and reads."""
from __future__ import annotations

from collections.abc import Iterator

from suite_trials.model.registers import Registers
from suite_trials.model.values import Box, channels


class Transfers(Registers):
    """What moves cells without drawing."""

    def fill_box(self, corner: int, size: int) -> Box:
        return corner & 0x3F0, corner >> 16 & self.rows - 1, (size & 0x3FF) + 15 & ~15, size >> 16 & 0x1FF

    def fill(self, words: list[int]) -> None:
        x, y, width, height = self.fill_box(words[1], words[2])
        red, green, blue = channels(words[0])
        for down in range(height):
            for right in range(width):
                self.fill_cell(x + right, y + down, red >> 3 | green >> 3 << 5 | blue >> 3 << 10)

    def fill_cell(self, x: int, y: int, value: int) -> None:
        self.put(x, y, value)

    def moved_box(self, corner: int, size: int) -> Box:
        return (corner & 0x3FF, corner >> 16 & self.rows - 1, ((size & 0xFFFF) - 1 & 0x3FF) + 1,
                ((size >> 16) - 1 & 0x1FF) + 1)

    def places(self, box: Box) -> Iterator[tuple[int, int]]:
        x, y, width, height = box
        return ((x + right, y + down) for down in range(height) for right in range(width))

    def copy(self, words: list[int]) -> None:
        target = self.places(self.moved_box(words[2], words[3]))
        for source in self.places(self.moved_box(words[1], words[3])):
            self.plot(*next(target), self.copied(*source))

    def copied(self, x: int, y: int) -> int:
        return self.get(x, y)

    def load(self, words: list[int]) -> None:
        box = self.moved_box(words[1], words[2])
        self.loading, self.left = self.places(box), box[2] * box[3]

    def load_plot(self, x: int, y: int, value: int) -> None:
        self.plot(x, y, value)

    def load_word(self, word: int) -> None:
        assert self.loading is not None
        for half in self.halves(word)[:self.left]:
            self.load_plot(*next(self.loading), half)
            self.left -= 1
        if not self.left:
            self.loading = None

    def halves(self, word: int) -> tuple[int, ...]:
        return word & 0xFFFF, word >> 16

    def store(self, words: list[int]) -> None:
        self.storing, self.stored = list(self.places(self.moved_box(words[1], words[2]))), 0

    def padding(self) -> int:
        return 0

    def read(self) -> int:
        if self.storing is None:
            return self.latch
        values = [self.stored_cell(*place) for place in self.storing[self.stored:self.stored + 2]] + [self.padding()]
        self.stored += 2
        if self.stored >= len(self.storing):
            self.storing = None
        return self.keep(values[0] | values[1] << 16)

    def stored_cell(self, x: int, y: int) -> int:
        return self.get(x, y)

    def keep(self, word: int) -> int:
        self.latch = word
        return word
