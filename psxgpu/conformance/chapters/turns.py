"""DMA that runs in turns with the processor: captures of version 2."""
from __future__ import annotations

from psxgpu.capture import BLOCKS_IN, BLOCKS_OUT, CLEAR_TABLE, LIST, rectangle, store
from psxgpu.conformance.suite import OWN, Chapter, Draft

CHAPTER = Chapter('turns', 'DMA Channels', needs=('turns',), version=2)
RED, CELL = 0x0000FF, 0x001F
ONE_BLOCK = 0x01000001


def dot(x: int, y: int = 0) -> list[int]:
    return rectangle(RED, x, y, 1, 1)


@CHAPTER.test('A start moves nothing, and each turn moves one block.', OWN)
def a_block_a_turn(t: Draft) -> None:
    t.open()
    t.capture.ram(0x1000, dot(0), dot(1), dot(2))
    t.capture.begin(0x1000, 3 << 16 | 2, BLOCKS_IN)
    t.capture.turn(2)
    t.row(0, 0, [CELL] * 2)


@CHAPTER.test('A turn of a list moves the words of one header.', OWN)
def a_header_a_turn(t: Draft) -> None:
    t.open()
    t.capture.ram(0x1000, 2 << 24 | 0x2000, dot(0))
    t.capture.ram(0x2000, 2 << 24 | 0xFFFFFF, dot(1))
    t.capture.begin(0x1000, 0, LIST)
    t.capture.turn()
    t.row(0, 0, [CELL])


@CHAPTER.test('Between turns the processor may write main memory: the next header is read as it is then.', OWN)
def written_between(t: Draft) -> None:
    t.open()
    t.capture.ram(0x1000, 0x2000)
    t.capture.ram(0x2000, 2 << 24 | 0xFFFFFF, dot(1))
    t.capture.begin(0x1000, 0, LIST)
    t.capture.turn()
    t.capture.ram(0x2004, dot(5))
    t.capture.turn(3)
    t.cell(5, 0, CELL)


@CHAPTER.test('A new start replaces the running transfer.', OWN)
def replaced(t: Draft) -> None:
    t.open()
    t.capture.ram(0x1000, dot(0), dot(1))
    t.capture.begin(0x1000, 2 << 16 | 2, BLOCKS_IN)
    t.capture.turn()
    t.capture.begin(0x1008, 1 << 16 | 2, BLOCKS_IN)
    t.capture.turn(2)
    t.row(0, 0, [CELL] * 2)


@CHAPTER.test('A start that moves words at once ends the running transfer.', OWN)
def ended_by_a_start(t: Draft) -> None:
    t.open()
    t.capture.ram(0x1000, dot(0), dot(1), dot(2))
    t.capture.begin(0x1000, 2 << 16 | 2, BLOCKS_IN)
    t.capture.dma(2, 0x1010, 1 << 16 | 2, BLOCKS_IN)
    t.capture.turn(2)
    t.cell(2, 0, CELL)


@CHAPTER.test('A block transfer of mode 0 is one turn.', OWN)
def mode_0(t: Draft) -> None:
    t.open()
    t.capture.ram(0x1000, dot(0), dot(1), dot(2))
    t.capture.begin(0x1000, 7 << 16 | 4, ONE_BLOCK)
    t.capture.turn()
    t.row(0, 0, [CELL] * 2)


@CHAPTER.test('A start of a list whose address has bit 23 leaves no transfer running.', OWN)
def empty_list(t: Draft) -> None:
    t.open()
    t.capture.ram(0x1000, dot(0), dot(1))
    t.capture.begin(0x1000, 2 << 16 | 2, BLOCKS_IN)
    t.capture.begin(0x800000, 0, LIST)
    t.capture.turn()


@CHAPTER.test('A start without CHCR bit 24 leaves the running transfer.', OWN)
def not_started(t: Draft) -> None:
    t.open()
    t.capture.ram(0x1000, dot(0), dot(1))
    t.capture.begin(0x1000, 2 << 16 | 2, BLOCKS_IN)
    t.capture.begin(0x1008, 1 << 16 | 2, BLOCKS_IN & ~(1 << 24))
    t.capture.dma(2, 0x1008, 1 << 16 | 2, BLOCKS_IN & ~(1 << 24))
    t.capture.turn()
    t.cell(0, 0, CELL)


@CHAPTER.test('Channel 6 and GP1 leave the running transfer, also a reset.', OWN)
def goes_on(t: Draft) -> None:
    t.open()
    t.capture.ram(0x1000, dot(0), dot(1))
    t.capture.begin(0x1000, 2 << 16 | 2, BLOCKS_IN)
    t.capture.dma(6, 0x2010, 4, CLEAR_TABLE)
    t.gp1(0x00000000, 0x01000000)
    t.open()
    t.capture.turn(2)
    t.row(0, 0, [CELL] * 2)


@CHAPTER.test('Into main memory each turn reads one block of the store.', OWN)
def into_main_memory(t: Draft) -> None:
    t.given(0, 0, 4, [0x1111, 0x2222, 0x3333, 0x4444])
    t.packet(store(0, 0, 4, 1))
    t.capture.begin(0x1000, 2 << 16 | 1, BLOCKS_OUT)
    t.capture.turn()
    t.read(0x44443333)
    t.capture.turn()


@CHAPTER.test('A running transfer does not show in the status word.', OWN)
def not_in_the_status(t: Draft) -> None:
    t.capture.begin(0x1000, 2 << 16 | 2, BLOCKS_IN)
    t.stat(1 << 26 | 1 << 28, mask=7 << 26)


@CHAPTER.test('A read whose word is not shown takes the next two cells of a store, too.', OWN)
def skipped_read(t: Draft) -> None:
    t.given(0, 0, 4, [0x1111, 0x2222, 0x3333, 0x4444])
    t.packet(store(0, 0, 4, 1))
    t.capture.skip()
    t.read(0x44443333)


@CHAPTER.test('A backward transfer continues below where the last turn ended.', OWN)
def backward(t: Draft) -> None:
    t.open()
    t.capture.ram(0x1000, list(reversed(dot(0) + dot(1) + dot(2))))
    t.capture.begin(0x1014, 3 << 16 | 2, BLOCKS_IN | 2)
    t.capture.turn(2)
    t.row(0, 0, [CELL] * 2)


@CHAPTER.test('A turn of a block of 0 words moves 10000h.', OWN)
def block_of_0(t: Draft) -> None:
    t.open()
    t.capture.ram(0x1000 + 4 * 0xFFFE, dot(0), dot(1))
    t.capture.begin(0x1000, 2 << 16, BLOCKS_IN)
    t.capture.turn()
    t.packet(dot(2))            # no word more was moved
    t.row(0, 0, [CELL, 0, CELL])
