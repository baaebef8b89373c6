"""The status word, bit by bit."""
from __future__ import annotations

from collections.abc import Sequence
from typing import Tuple

from psxgpu.capture import store
from psxgpu.conformance.suite import HAND, OWN, PSX_SPX, Chapter, Draft

CHAPTER = Chapter('status', '1F801814h GPUSTAT GPU Status Register (R)')
Step = Tuple[str, int, int]             # 'gp0' or 'gp1', a word, and the bits that are 1 after it


def bits(name: str, says: str, mask: int, steps: Sequence[Step], decides: str = PSX_SPX) -> None:
    """Words, and the bits of the mask after each."""
    def write(t: Draft) -> None:
        for port, word, value in steps:
            if port == 'gp0':
                t.packet(word)
            else:
                t.gp1(word)
            t.stat(value, mask=mask)
    CHAPTER.add(name, says, decides, HAND, write)


def field(name: str, says: str, mask: int, port: str, on: int, off: int, value: int, decides: str = PSX_SPX) -> None:
    """A field that one word sets and another clears."""
    bits(name, says, mask, [(port, on, value), (port, off, 0)], decides)


field('00-03-page-x', 'Bits 0 to 3 are GP0(E1h) bits 0 to 3.', 0x7FF, 'gp0', 0xE100000A, 0xE1000000, 0x00A)
field('04-page-y', 'Bit 4 is GP0(E1h) bit 4.', 0x7FF, 'gp0', 0xE1000010, 0xE1000000, 0x010)
field('05-06-blending', 'Bits 5 and 6 are GP0(E1h) bits 5 and 6.', 0x7FF, 'gp0', 0xE1000040, 0xE1000000, 0x040)
field('07-08-depth', 'Bits 7 and 8 are GP0(E1h) bits 7 and 8.', 0x7FF, 'gp0', 0xE1000100, 0xE1000000, 0x100)
field('09-dither', 'Bit 9 is GP0(E1h) bit 9.', 0x7FF, 'gp0', 0xE1000200, 0xE1000000, 0x200)
field('10-draw-to-display', 'Bit 10 is GP0(E1h) bit 10.', 0x7FF, 'gp0', 0xE1000400, 0xE1000000, 0x400)
field('11-mask-force', 'Bit 11 is GP0(E6h) bit 0.', 3 << 11, 'gp0', 0xE6000001, 0xE6000000, 1 << 11)
field('12-mask-keep', 'Bit 12 is GP0(E6h) bit 1.', 3 << 11, 'gp0', 0xE6000002, 0xE6000000, 1 << 12)
bits('13-field', 'Bit 13 is always 1.', 1 << 13, [('gp1', 0x00000000, 1 << 13), ('gp1', 0x08000000, 1 << 13)], OWN)
field('14-flip', 'Bit 14 is GP1(08h) bit 7.', 1 << 14, 'gp1', 0x08000080, 0x08000000, 1 << 14)
bits('15-texture-disable', 'Bit 15 stays 0: GP0(E1h) bit 11 is not kept where video memory has 512 rows.', 1 << 15,
     [('gp0', 0xE1000800, 0)], OWN)
field('16-width-368', 'Bit 16 is GP1(08h) bit 6.', 0x7F0000, 'gp1', 0x08000040, 0x08000000, 1 << 16)
field('17-18-width', 'Bits 17 and 18 are GP1(08h) bits 0 and 1.', 0x7F0000, 'gp1', 0x08000002, 0x08000000, 1 << 18)
field('19-height', 'Bit 19 is GP1(08h) bit 2.', 0x7F0000, 'gp1', 0x08000004, 0x08000000, 1 << 19)
field('20-pal', 'Bit 20 is GP1(08h) bit 3.', 0x7F0000, 'gp1', 0x08000008, 0x08000000, 1 << 20)
field('21-24-bits', 'Bit 21 is GP1(08h) bit 4.', 0x7F0000, 'gp1', 0x08000010, 0x08000000, 1 << 21)
field('22-interlace', 'Bit 22 is GP1(08h) bit 5.', 0x7F0000, 'gp1', 0x08000020, 0x08000000, 1 << 22)
field('23-display-off', 'Bit 23 is GP1(03h) bit 0.', 1 << 23, 'gp1', 0x03FFFFFF, 0x03FFFFFE, 1 << 23)
bits('24-interrupt', 'GP0(1Fh) sets bit 24, and GP1(02h) clears it.', 1 << 24,
     [('gp0', 0x1F000000, 1 << 24), ('gp1', 0x02000000, 0)])
bits('25-direction-0', 'Bit 25 is 0 with DMA direction 0.', 1 << 25, [('gp1', 0x04000000, 0)])
bits('25-direction-1', 'Bit 25 is 1 with DMA direction 1: the FIFO is never full.', 1 << 25,
     [('gp1', 0x04000001, 1 << 25)], OWN)
field('29-30-direction', 'Bits 29 and 30 are GP1(04h) bits 0 and 1.', 3 << 29, 'gp1', 0x04FFFFFE, 0x04000000, 2 << 29)
bits('31-odd-line', 'Bit 31 is always 0.', 1 << 31, [('gp1', 0x00000000, 0)], OWN)


@CHAPTER.test('After a reset the status is 14802000h: display off, ready for words and for DMA.')
def after_reset(t: Draft) -> None:
    t.before(0xE1000123, 0xE6000003, 0x1F000000)
    t.gp1(0x03000000, 0x04000002, 0x080000FF, 0x00000000)
    t.stat(0x14802000, mask=0x7F87DFFF & ~(1 << 13))


bits('25-direction-2', 'With DMA direction 2 bit 25 is bit 28: 1 while nothing is open.', 1 << 28 | 1 << 25,
     [('gp1', 0x04000002, 1 << 28 | 1 << 25)])
bits('25-direction-3', 'With DMA direction 3 bit 25 is bit 27: 0 while nothing is open.', 1 << 27 | 1 << 25,
     [('gp1', 0x04000003, 0)])


@CHAPTER.test('With DMA direction 3 bit 25 is bit 27 while a store is open.')
def bit_25_in_a_store(t: Draft) -> None:
    t.gp1(0x04000003)
    t.packet(store(0, 0, 2, 1))
    t.stat(1 << 27 | 1 << 25, mask=1 << 27 | 1 << 25)


@CHAPTER.test('Bit 26 is 0 while a packet is unfinished, and 1 after it.')
def bit_26_in_a_packet(t: Draft) -> None:
    t.packet(0x20000000, 0, 0)
    t.stat(0, mask=1 << 26)
    t.packet(0)
    t.stat(1 << 26, mask=1 << 26)


@CHAPTER.test('Bit 26 is 0 from the first word of a packet on.')
def bit_26_from_the_first_word(t: Draft) -> None:
    t.stat(1 << 26, mask=1 << 26)
    t.packet(0x02000000)
    t.stat(0, mask=1 << 26)
    t.packet(0)
    t.stat(0, mask=1 << 26)
    t.packet(0)
    t.stat(1 << 26, mask=1 << 26)


@CHAPTER.test('Bit 26 is 0 while a load is open.', OWN)
def bit_26_in_a_load(t: Draft) -> None:
    t.packet(0xA0000000, 0, 1 << 16 | 4, 0)
    t.stat(0, mask=1 << 26)
    t.packet(0)
    t.stat(1 << 26, mask=1 << 26)


@CHAPTER.test('Bit 26 is 0 until the end word of a polyline, also between two joints.', OWN)
def bit_26_in_a_polyline(t: Draft) -> None:
    t.packet(0x48000000, 0, 0)
    t.stat(0, mask=1 << 26)
    t.packet(0x55555555)
    t.stat(1 << 26, mask=1 << 26)


@CHAPTER.test('Bit 26 is 1 while a store is open.', OWN)
def bit_26_in_a_store(t: Draft) -> None:
    t.packet(store(0, 0, 2, 1))
    t.stat(1 << 26, mask=1 << 26)
    t.read(0)


@CHAPTER.test('Bit 27 is 1 from a store\'s last word until its last read.')
def bit_27(t: Draft) -> None:
    t.stat(0, mask=1 << 27)
    t.packet(store(0, 0, 4, 1))
    t.stat(1 << 27, mask=1 << 27)
    t.read(0)
    t.stat(1 << 27, mask=1 << 27)
    t.read(0)
    t.stat(0, mask=1 << 27)


@CHAPTER.test('Bit 28 is 0 while a store is open.', OWN)
def bit_28_in_a_store(t: Draft) -> None:
    t.packet(store(0, 0, 2, 1))
    t.stat(0, mask=1 << 28)
    t.read(0)
    t.stat(1 << 28, mask=1 << 28)


@CHAPTER.test('Bit 28 is 1 while a packet is unfinished.', OWN)
def bit_28_in_a_packet(t: Draft) -> None:
    t.packet(0x20000000, 0)
    t.stat(1 << 28, mask=1 << 28)


@CHAPTER.test('With DMA direction 2 bit 25 is bit 28 while a store is open: 0.', OWN)
def direction_2_in_a_store(t: Draft) -> None:
    t.gp1(0x04000002)
    t.packet(store(0, 0, 2, 1))
    t.stat(0, mask=1 << 28 | 1 << 25)


@CHAPTER.test('Bit 26 is 0 between a colour of a polyline and its vertex.', OWN)
def bit_26_after_a_color(t: Draft) -> None:
    t.packet(0x58000000, 0, 0, 0, 0)
    t.stat(0, mask=1 << 26)
    t.packet(0, 0x55555555)
    t.stat(1 << 26, mask=1 << 26)


@CHAPTER.test('Bits 29 and 30 are the direction while a store is open, too.')
def direction_in_a_store(t: Draft) -> None:
    t.packet(store(0, 0, 2, 1))
    t.stat(0, mask=3 << 29)


@CHAPTER.test('Bit 26 is 0 while a packet is unfinished and a store is open.', OWN)
def bit_26_in_a_packet_and_a_store(t: Draft) -> None:
    t.gp1(0x04000002)
    t.packet(store(0, 0, 2, 1), 0x20000000)
    t.stat(0, mask=1 << 26)


@CHAPTER.test('At first the status is 14802000h.', OWN)
def at_first(t: Draft) -> None:
    t.stat(0x14802000, mask=0x7FFFDFFF)
