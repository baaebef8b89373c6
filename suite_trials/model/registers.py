"""Registers: GP0(E1h) to GP0(E6h), GP1, and the status word."""
from __future__ import annotations

from suite_trials.model.state import State


class Registers(State):
    """The registers of a machine."""

    def draw_mode_bits(self) -> int:
        return 0x3FFF if self.tall else 0x37FF

    def corner_bits(self) -> int:
        return 0xFFFFF if self.tall else 0x7FFFF

    def environment(self, word: int) -> None:
        code = word >> 24
        if code == 0xE1:
            self.e1 = word & self.draw_mode_bits()
        elif code == 0xE2:
            self.window = word & 0xFFFFF
        elif code == 0xE3:
            self.top_left = word & self.corner_bits()
        elif code == 0xE4:
            self.bottom_right = word & self.corner_bits()
        elif code == 0xE5:
            self.offset = word & 0x3FFFFF
        elif code == 0xE6:
            self.mask = word & 3

    def gp1_opcode(self, word: int) -> int:
        return word >> 24 & 0x3F

    def gp1(self, word: int) -> None:
        code = self.gp1_opcode(word)
        if code == 0x00:
            self.start_clean()
            self.reset()
        elif code == 0x01:
            self.cut()
        elif code == 0x02:
            self.interrupt = 0
        elif code == 0x03:
            self.off = word & 1
        elif code == 0x04:
            self.direction = word & 3
        elif code == 0x05:
            self.start = word & self.corner_bits()
        elif code == 0x06:
            self.horizontal = word & 0xFFFFFF
        elif code == 0x07:
            self.vertical = word & 0xFFFFF
        elif code == 0x08:
            self.mode = word & 0xFF
        elif 0x10 <= code <= 0x1F:
            self.latch = self.information(word & 0xF)

    def cut(self) -> None:
        self.start_clean()

    def information(self, index: int) -> int:
        return {2: self.window, 3: self.top_left, 4: self.bottom_right, 5: self.offset, 7: 2, 8: 0}.get(index,
                                                                                                        self.latch)

    def is_idle(self) -> bool:
        return not self.words and self.loading is None and self.joint is None

    def is_sending(self) -> bool:
        return self.storing is not None

    def status(self) -> int:
        sending, mode = int(self.is_sending()), self.mode
        word = self.e1 & 0x7FF | self.mask << 11 | 1 << 13 | (mode >> 7 & 1) << 14 | (self.e1 >> 11 & 1) << 15
        word |= (mode >> 6 & 1) << 16 | (mode & 0x3F) << 17 | self.off << 23 | self.interrupt << 24
        word |= (0, 1, 1 - sending, sending)[self.direction] << 25 | int(self.is_idle()) << 26
        return word | sending << 27 | (1 - sending) << 28 | self.direction << 29
