"""The words of GP0 as packets."""
from __future__ import annotations

from suite_trials.model.rectangles import Rectangles


class Packets(Rectangles):
    """The port GP0."""

    def length(self, first: int) -> int:
        kind, shaded, textured = first >> 29, first >> 28 & 1, first >> 26 & 1
        if kind == 0:
            return 3 if first >> 24 == 0x02 else 1
        if kind == 1:
            points = 4 if first >> 27 & 1 else 3
            return 1 + points * (1 + textured) + shaded * (points - 1)
        if kind == 2:
            return 4 if shaded else 3
        if kind == 3:
            return 2 + textured + int(not first >> 27 & 3)
        return (4, 3, 3, 1)[kind - 4]

    def gp0(self, word: int) -> None:
        if self.loading is not None:
            self.load_word(word)
        elif self.joint is not None:
            self.joint_word(word)
        else:
            self.words.append(word)
            if len(self.words) == self.length(self.words[0]):
                words, self.words = self.words, []
                self.packet(words)

    def packet(self, words: list[int]) -> None:
        kind, code = words[0] >> 29, words[0] >> 24
        if code == 0x02:
            self.fill(words)
        elif code == 0x1F:
            self.interrupt = 1
        elif kind == 7:
            self.environment(words[0])
        elif kind:
            (self.polygon, self.line, self.rectangle, self.copy, self.load, self.store)[kind - 1](words)
