"""More of the chapter dma: the ordering tables of channel 6."""
from __future__ import annotations

from psxgpu.capture import BLOCKS_IN, CLEAR_TABLE, load
from psxgpu.conformance.chapters.dma import CHAPTER
from psxgpu.conformance.suite import OWN, Draft


def halves(*words: int) -> list[int]:
    """The cells of words."""
    return [half for word in words for half in (word & 0xFFFF, word >> 16)]


@CHAPTER.test('Channel 6 writes a table downward: each entry is the address below it, the last one 00FFFFFFh.')
def ordering_table(t: Draft) -> None:
    t.capture.ram(0x1000, [0x55555555] * 6)
    t.capture.dma(6, 0x1010, 4, CLEAR_TABLE)
    t.packet(load(0, 0, 12, 1, [0] * 12)[:3])
    t.capture.dma(2, 0x1000, 1 << 16 | 6, BLOCKS_IN)
    words = [0x55555555, 0x00FFFFFF, 0x00001004, 0x00001008, 0x0000100C, 0x55555555]
    t.row(0, 0, halves(*words))


@CHAPTER.test('A BCR of 0 means 10000h entries of a table.')
def ordering_table_of_0(t: Draft) -> None:
    t.capture.dma(6, 0x40000, 0, CLEAR_TABLE)
    t.packet(load(0, 0, 6, 1, [0] * 6)[:3])
    t.capture.dma(2, 0x0000, 1 << 16 | 3, BLOCKS_IN)
    t.row(0, 0, halves(0x00000000, 0x00FFFFFF, 0x00000004))


@CHAPTER.test('Below address 0 a table continues at 1FFFFCh.', OWN)
def ordering_table_below_0(t: Draft) -> None:
    t.capture.dma(6, 0x4, 4, CLEAR_TABLE)
    t.packet(load(0, 0, 10, 1, [0] * 10)[:3])
    t.capture.dma(2, 0x1FFFF4, 1 << 16 | 5, BLOCKS_IN)
    t.row(0, 0, halves(0x00000000, 0x00FFFFFF, 0x001FFFF8, 0x001FFFFC, 0x00000000))


@CHAPTER.test('For channel 6 only CHCR bit 24 counts.', OWN)
def ordering_table_by_bit_24(t: Draft) -> None:
    t.capture.ram(0x1000, [0x55555555] * 2)
    t.capture.dma(6, 0x1004, 2, 0x10000002)
    t.packet(load(0, 0, 4, 1, [0] * 4)[:3])
    t.capture.dma(2, 0x1000, 1 << 16 | 2, BLOCKS_IN)
    t.capture.dma(6, 0x1004, 2, 0x01000601)
    t.packet(load(0, 1, 4, 1, [0] * 4)[:3])
    t.capture.dma(2, 0x1000, 1 << 16 | 2, BLOCKS_IN)
    t.row(0, 0, halves(0x55555555, 0x55555555))
    t.row(0, 1, halves(0x00FFFFFF, 0x00001000))


@CHAPTER.test('For channel 6, too, MADR bits 21 to 31 and the two lowest bits mean nothing.', OWN)
def ordering_table_bits_of_madr(t: Draft) -> None:
    t.capture.ram(0x1000, [0x55555555] * 4)
    t.capture.dma(6, 0x8060100B, 2, CLEAR_TABLE)
    t.packet(load(0, 0, 8, 1, [0] * 8)[:3])
    t.capture.dma(2, 0x1000, 1 << 16 | 4, BLOCKS_IN)
    t.row(0, 0, halves(0x55555555, 0x00FFFFFF, 0x00001004, 0x55555555))
