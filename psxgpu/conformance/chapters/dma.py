"""DMA: channel 2 in three forms, and channel 6."""
from __future__ import annotations

from psxgpu.capture import BLOCKS_IN, BLOCKS_OUT, LIST, load, rectangle, store
from psxgpu.conformance.suite import OWN, Chapter, Draft

CHAPTER = Chapter('dma', 'DMA Channels, DMA Register Summary', needs=('dma',))
RED, CELL = 0x0000FF, 0x001F
ONE_BLOCK = 0x01000001


def dot(x: int, y: int = 0) -> list[int]:
    return rectangle(RED, x, y, 1, 1)


@CHAPTER.test('A linked list: the words after each header go to GP0, and FFFFFFh ends it.')
def linked_list(t: Draft) -> None:
    t.open()
    t.capture.ram(0x1000, 2 << 24 | 0x2000, dot(0))
    t.capture.ram(0x2000, 0 << 24 | 0x1800)
    t.capture.ram(0x1800, 4 << 24 | 0xFFFFFF, dot(1), dot(2))
    t.capture.dma(2, 0x1000, 0, LIST)
    t.row(0, 0, [CELL] * 3)


@CHAPTER.test('Bit 23 of an address alone ends a list.', OWN)
def ended_by_bit_23(t: Draft) -> None:
    t.open()
    t.capture.ram(0x1000, 2 << 24 | 0x802000, dot(0))
    t.capture.ram(0x2000, 2 << 24 | 0xFFFFFF, dot(1))
    t.capture.dma(2, 0x1000, 0, LIST)
    t.cell(0, 0, CELL)


@CHAPTER.test('Mode 1: blocks of BCR bits 0 to 15 words, bits 16 to 31 of them.')
def blocks(t: Draft) -> None:
    t.open()
    t.capture.ram(0x1000, dot(0), dot(1), dot(2), dot(3))
    t.capture.dma(2, 0x1000, 3 << 16 | 2, BLOCKS_IN)
    t.row(0, 0, [CELL] * 3)


@CHAPTER.test('Mode 0: as many words as BCR bits 0 to 15 say, also without CHCR bit 28.', OWN)
def one_block(t: Draft) -> None:
    t.open()
    t.capture.ram(0x1000, dot(0), dot(1), dot(2))
    t.capture.dma(2, 0x1000, 7 << 16 | 4, ONE_BLOCK)
    t.row(0, 0, [CELL] * 2)


@CHAPTER.test('CHCR bit 1: the address goes down by 4 for each word.')
def backward(t: Draft) -> None:
    t.open()
    t.capture.ram(0x1000, list(reversed(dot(0) + dot(1))))
    t.capture.dma(2, 0x100C, 1 << 16 | 4, BLOCKS_IN | 2)
    t.row(0, 0, [CELL] * 2)


@CHAPTER.test('Into main memory each word is a read of the data port.')
def into_main_memory(t: Draft) -> None:
    t.open()
    t.given(0, 0, 4, [0x1111, 0x2222, 0x3333, 0x4444])
    t.packet(store(0, 0, 4, 1))
    t.capture.dma(2, 0x1000, 1 << 16 | 2, BLOCKS_OUT)
    t.packet(load(8, 8, 4, 1, [0] * 4)[:3])
    t.capture.dma(2, 0x1000, 1 << 16 | 2, BLOCKS_IN)
    t.row(8, 8, [0x1111, 0x2222, 0x3333, 0x4444])


@CHAPTER.test('A packet may begin in one start and end in the next, or at the port.')
def packet_over_starts(t: Draft) -> None:
    t.open()
    words = rectangle(RED, 2, 2, 3, 3)
    t.capture.ram(0x1000, words[:2])
    t.capture.dma(2, 0x1000, 1 << 16 | 1, BLOCKS_IN)
    t.capture.dma(2, 0x1004, 1 << 16 | 1, BLOCKS_IN)
    t.packet(words[2:])
    t.box(2, 2, 3, 3, CELL)


@CHAPTER.test('Mode 0 with a BCR of 0 moves 10000h words, also without CHCR bit 28.', OWN)
def one_block_of_0(t: Draft) -> None:
    t.open()
    t.capture.ram(0x1000 + 4 * 0xFFFE, dot(0), dot(1))
    t.capture.dma(2, 0x1000, 0, ONE_BLOCK)
    t.packet(dot(2))            # no word more was moved
    t.row(0, 0, [CELL, 0, CELL])


@CHAPTER.test('A block of 0 words in mode 1 has 10000h.', OWN)
def blocks_of_0(t: Draft) -> None:
    t.open()
    t.capture.ram(0x1000 + 4 * 0xFFFE, dot(0), dot(1))
    t.capture.dma(2, 0x1000, 1 << 16, BLOCKS_IN)
    t.packet(dot(2))            # no word more was moved
    t.row(0, 0, [CELL, 0, CELL])


@CHAPTER.test('An address that is the end at once moves nothing.', OWN)
def empty_list(t: Draft) -> None:
    t.open()
    t.capture.ram(0x0, 2 << 24 | 0xFFFFFF, dot(0))
    t.capture.dma(2, 0x800000, 0, LIST)


@CHAPTER.test('0 blocks in mode 1 are 10000h.', OWN)
def count_of_0(t: Draft) -> None:
    t.open()
    t.capture.ram(0x1000 + 4 * 0xFFFE, dot(0), dot(1))
    t.capture.dma(2, 0x1000, 1, BLOCKS_IN)
    t.packet(dot(2))            # no word more was moved
    t.row(0, 0, [CELL, 0, CELL])


@CHAPTER.test('The two lowest bits of an address in a list mean nothing.', OWN)
def low_bits_of_a_list(t: Draft) -> None:
    t.open()
    t.capture.ram(0x1000, 2 << 24 | 0x2003, dot(0))
    t.capture.ram(0x2000, 2 << 24 | 0xFFFFFF, dot(1))
    t.capture.dma(2, 0x1001, 0, LIST)
    t.row(0, 0, [CELL] * 2)


@CHAPTER.test('Main memory is 0 at first.', OWN)
def memory_at_first(t: Draft) -> None:
    t.packet(load(0, 0, 4, 1, [0] * 4)[:3])
    t.capture.dma(2, 0x1000, 1 << 16 | 2, BLOCKS_IN)
    t.box(0, 0, 4, 1, 0)


@CHAPTER.test('A start without CHCR bit 24 does nothing.', OWN)
def not_started(t: Draft) -> None:
    t.open()
    t.capture.ram(0x1000, dot(0))
    t.capture.dma(2, 0x1000, 1 << 16 | 2, BLOCKS_IN & ~(1 << 24))


@CHAPTER.test('MADR bits 24 to 31 and 21 to 22, and the two lowest bits, mean nothing.', OWN)
def bits_of_madr(t: Draft) -> None:
    t.open()
    t.capture.ram(0x1000, dot(0))
    t.capture.dma(2, 0x80601003, 1 << 16 | 2, BLOCKS_IN)
    t.cell(0, 0, CELL)


@CHAPTER.test('DMA runs whatever GP1(04h) holds.', OWN)
def direction_not_asked(t: Draft) -> None:
    t.open()
    t.gp1(0x04000003)
    t.capture.ram(0x1000, dot(0))
    t.capture.dma(2, 0x1000, 1 << 16 | 2, BLOCKS_IN)
    t.cell(0, 0, CELL)


@CHAPTER.test('The backward bit means nothing for a list.', OWN)
def list_backward(t: Draft) -> None:
    t.open()
    t.capture.ram(0x1000, 2 << 24 | 0xFFFFFF, dot(0))
    t.capture.dma(2, 0x1000, 0, LIST | 2)
    t.cell(0, 0, CELL)


@CHAPTER.test('A header without words leads to the next one.')
def header_without_words(t: Draft) -> None:
    t.open()
    t.capture.ram(0x1000, 0x2000, dot(0))
    t.capture.ram(0x2000, 2 << 24 | 0xFFFFFF, dot(1))
    t.capture.dma(2, 0x1000, 0, LIST)
    t.cell(1, 0, CELL)


@CHAPTER.test('The chopping bits of CHCR and bit 28 mean nothing.', OWN)
def chopping(t: Draft) -> None:
    t.open()
    t.capture.ram(0x1000, dot(0))
    t.capture.dma(2, 0x1000, 1 << 16 | 2, BLOCKS_IN | 1 << 28 | 0x00770100)
    t.cell(0, 0, CELL)


@CHAPTER.test('Mode 0 goes into main memory backward, too, also without CHCR bit 28.', OWN)
def one_block_backward_into_main_memory(t: Draft) -> None:
    t.given(0, 0, 4, [0x1111, 0x2222, 0x3333, 0x4444])
    t.packet(store(0, 0, 4, 1))
    t.capture.dma(2, 0x1004, 2, ONE_BLOCK & ~1 | 2)
    t.packet(load(8, 8, 4, 1, [0] * 4)[:3])
    t.capture.dma(2, 0x1000, 1 << 16 | 2, BLOCKS_IN)
    t.row(8, 8, [0x3333, 0x4444, 0x1111, 0x2222])


@CHAPTER.test('Bits 21 and 22 of an address in a list mean nothing.', OWN)
def mirrors_of_a_list(t: Draft) -> None:
    t.open()
    t.capture.ram(0x1000, 2 << 24 | 0x602000, dot(0))
    t.capture.ram(0x2000, 2 << 24 | 0xFFFFFF, dot(1))
    t.capture.dma(2, 0x401000, 0, LIST)
    t.row(0, 0, [CELL] * 2)


@CHAPTER.test('Backward below address 0 the words continue at 1FFFFCh.', OWN)
def backward_below_0(t: Draft) -> None:
    t.open()
    words = dot(0) + dot(1)
    t.capture.ram(0x0, [words[1], words[0]])
    t.capture.ram(0x1FFFF8, [words[3], words[2]])
    t.capture.dma(2, 0x4, 1 << 16 | 4, BLOCKS_IN | 2)
    t.row(0, 0, [CELL] * 2)
