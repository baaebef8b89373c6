"""Stores: GP0(C0h), from video memory to the processor."""
from __future__ import annotations

from psxgpu.capture import rectangle, store
from psxgpu.conformance.packets import STORES, marks
from psxgpu.conformance.suite import OWN, Chapter, Draft

CHAPTER = Chapter('stores', 'GP0(C0h) Copy Rectangle (VRAM to CPU)')


@CHAPTER.test('Each read returns the next two cells, the low half first, row after row.')
def low_half_first(t: Draft) -> None:
    t.given(5, 3, 4, [0x1111, 0x2222, 0x3333, 0x4444, 0x5555, 0x6666, 0x7777, 0x8888])
    t.packet(store(6, 3, 2, 2))
    t.read(0x33332222, 0x77776666)


@CHAPTER.test('The spare half of the last word of an odd store is 0.', OWN)
def odd_count(t: Draft) -> None:
    t.given(5, 3, 4, [0x1111, 0x2222, 0x3333, 0x4444])
    t.packet(store(5, 3, 3, 1))
    t.read(0x22221111, 0x00003333)


@CHAPTER.test('The last cell of an odd store is in the low half of the last word.')
def odd_last_cell(t: Draft) -> None:
    t.given(5, 3, 4, [0x1111, 0x2222, 0x3333, 0x4444])
    t.packet(store(5, 3, 3, 1))
    t.read(0x22221111)
    t.read(0x00003333, mask=0xFFFF)


@CHAPTER.test('A store over the right edge continues at X 0 of the same row.')
def wraps_right(t: Draft) -> None:
    t.given(1023, 3, 1, [0x1111])
    t.given(0, 3, 1, [0x2222])
    t.packet(store(1023, 3, 2, 1))
    t.read(0x22221111)


@CHAPTER.test('A store over the bottom continues at row 0.')
def wraps_bottom(t: Draft) -> None:
    t.given(7, 511, 1, [0x1111])
    t.given(7, 0, 1, [0x2222])
    t.packet(store(7, 511, 1, 2))
    t.read(0x22221111)


@CHAPTER.test('A width of 0 means 1024: the 512th word has the last two cells of the row.',
              marks=marks(['size 0'], *STORES))
def width_0_is_1024(t: Draft) -> None:
    t.given(0, 3, 2, [0x1111, 0x2222])
    t.given(1022, 3, 2, [0x3333, 0x4444])
    t.packet(0xC0000000, 3 << 16, 1 << 16)
    t.read(0x22221111, *[0] * 510, 0x44443333)


@CHAPTER.test('A height of 0 means 512: the 256th word has the last two rows.', marks=marks(['size 0'], *STORES))
def height_0_is_512(t: Draft) -> None:
    t.given(3, 0, 1, [0x1111])
    t.given(3, 511, 1, [0x2222])
    t.packet(0xC0000000, 3, 1)
    t.read(0x00001111, *[0] * 254, 0x22220000)


@CHAPTER.test('X has ten bits, Y nine, the width ten and the height nine: what is above them is dropped.',
              marks=marks(['bits above the coordinates'], *STORES))
def bits_above(t: Draft) -> None:
    t.given(5, 3, 2, [0x1111, 0x2222])
    t.packet(0xC0000000, 0xFE03FC05, 0xFE01FC02)
    t.read(0x22221111)
    t.stat(0, mask=1 << 27)


@CHAPTER.test('A read returns the cells as they are then: a packet between two reads shows.', OWN)
def cells_as_they_are(t: Draft) -> None:
    t.open()
    t.given(0, 0, 4, [0x1111, 0x2222, 0x3333, 0x4444])
    t.packet(store(0, 0, 4, 1))
    t.read(0x22221111)
    t.packet(rectangle(0x0000FF, 3, 0, 1, 1))
    t.cell(3, 0, 0x001F)
    t.read(0x001F3333)


@CHAPTER.test('A second store replaces one that is open.', OWN)
def replaced(t: Draft) -> None:
    t.given(0, 0, 4, [0x1111, 0x2222, 0x3333, 0x4444])
    t.packet(store(0, 0, 4, 1))
    t.read(0x22221111)
    t.packet(store(1, 0, 2, 1))
    t.read(0x33332222)


@CHAPTER.test('Bits 24 to 28 of the first word mean nothing: DFh stores as C0h does.', OWN)
def df_is_c0(t: Draft) -> None:
    t.given(0, 0, 2, [0x1111, 0x2222])
    t.packet(0xDFFFFFFF, 0, 1 << 16 | 2)
    t.read(0x22221111)
