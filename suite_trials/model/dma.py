"""Main memory, the two DMA channels, and transfers that run in turns."""
from __future__ import annotations

from collections.abc import Iterator

from suite_trials.model.packets import Packets

MAIN_MEMORY = 0x1FFFFC


class Dma(Packets):
    """DMA before the graphics processor."""

    def word(self, address: int) -> int:
        return self.memory.get(address & MAIN_MEMORY, 0)

    def clear_table(self, madr: int, bcr: int) -> None:
        count = bcr & 0xFFFF or 0x10000
        for at in range(count):
            address = madr - 4 * at
            last = at == count - 1
            self.memory[address & MAIN_MEMORY] = self.table_end() if last else self.table_entry(address)

    def table_entry(self, address: int) -> int:
        return address - 4 & MAIN_MEMORY

    def table_end(self) -> int:
        return 0xFFFFFF

    def list_ends(self, address: int) -> bool:
        return bool(address & 0x800000)

    def step(self, chcr: int) -> int:
        return -4 if chcr & 2 else 4

    def block_words(self, bcr: int, mode: int) -> tuple[int, int]:
        """Blocks, and the words of each."""
        return (bcr >> 16 or 0x10000 if mode else 1), bcr & 0xFFFF or 0x10000

    def transfer(self, madr: int, bcr: int, chcr: int) -> Iterator[None]:
        """Channel 2, piece by piece."""
        address, mode = madr & 0xFFFFFF, chcr >> 9 & 3
        if mode == 2:
            while not self.list_ends(address):
                header = self.word(address)
                for at in range(header >> 24):
                    self.gp0(self.word(address + 4 + 4 * at))
                address = header & 0xFFFFFF
                yield
            return
        blocks, size = self.block_words(bcr, mode)
        for _ in range(blocks):
            for _ in range(size):
                if chcr & 1:
                    self.gp0(self.word(address))
                else:
                    self.memory[address & MAIN_MEMORY] = self.read()
                address += self.step(chcr)
            yield

    def is_started(self, chcr: int) -> bool:
        return bool(chcr >> 24 & 1)

    def dma(self, channel: int, madr: int, bcr: int, chcr: int) -> None:
        if not self.is_started(chcr):
            return
        if channel == 6:
            self.clear_table(madr, bcr)
            return
        self.run = None
        for _ in self.transfer(madr, bcr, chcr):
            pass

    def begin(self, madr: int, bcr: int, chcr: int) -> None:
        if self.is_started(chcr):
            self.run = self.transfer(madr, bcr, chcr)

    def turn(self) -> None:
        if self.run is not None:
            next(self.run, None)
