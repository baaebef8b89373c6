"""The shown picture, and with it the whole machine."""
from __future__ import annotations

from suite_trials.model.dma import Dma


class Machine(Dma):
    """The graphics processor, and DMA before it."""

    def cycles(self) -> int:
        return 7 if self.mode & 0x40 else (10, 8, 5, 4)[self.mode & 3]

    def is_doubled(self) -> bool:
        return self.mode & 0x24 == 0x24

    def shown_size(self) -> tuple[int, int]:
        x1, x2, y1, y2 = self.horizontal & 0xFFF, self.horizontal >> 12, self.vertical & 0x3FF, self.vertical >> 10
        return (max(x2 - x1, 0) // self.cycles() + 2) & ~3, max(y2 - y1, 0) * (2 if self.is_doubled() else 1)

    def wide(self, channel: int) -> int:
        return 8 * channel + channel // 4

    def shown_row(self, y: int, width: int) -> bytes:
        x = self.start & 0x3FF
        if self.mode & 0x10:
            row = b''.join(self.get(x + at, y).to_bytes(2, 'little') for at in range((3 * width + 1) // 2))
            return row[:3 * width]
        return bytes(self.wide(self.get(x + at, y) >> shift & 31) for at in range(width) for shift in (0, 5, 10))

    def shot(self) -> bytes:
        width, height = self.shown_size()
        if not width or not height:
            return b''
        top = self.start >> 10
        rows = b''.join(self.shown_row(top + down, width) for down in range(height))
        return b'P6\n%d %d\n255\n' % (width, height) + rows
