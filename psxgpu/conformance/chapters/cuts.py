"""Packets that a reset or GP1(01h) cuts."""
from __future__ import annotations

from psxgpu.capture import line, load, mask_setting, rectangle, store
from psxgpu.conformance.suite import OWN, Chapter, Draft

CHAPTER = Chapter('cuts', 'GP1(00h) Reset GPU, GP1(01h) Reset Command Buffer')
RED, CELL = 0x0000FF, 0x001F
CLEAR = 0x01000000


@CHAPTER.test('GP1(01h) drops the words of an unfinished packet.')
def packet_dropped(t: Draft) -> None:
    t.open()
    t.packet(rectangle(0x00FF00, 0, 0, 3, 3)[:2])
    t.gp1(CLEAR)
    t.packet(rectangle(RED, 0, 0, 1, 1))
    t.cell(0, 0, CELL)


@CHAPTER.test('GP1(01h) ends a load: the words that were loaded stay, and the next word is a packet.', OWN)
def load_ended(t: Draft) -> None:
    t.open()
    t.packet(load(0, 0, 8, 1, [0x1111] * 8)[:5])
    t.gp1(CLEAR)
    t.packet(rectangle(RED, 6, 0, 1, 1))
    t.row(0, 0, [0x1111] * 4)
    t.cell(6, 0, CELL)


@CHAPTER.test('GP1(01h) ends a polyline: its lines stay, and the next word is a packet.', OWN)
def polyline_ended(t: Draft) -> None:
    t.open()
    t.packet(line([(0, 0), (3, 0), (3, 3)], RED)[:3])
    t.gp1(CLEAR)
    t.packet(rectangle(RED, 6, 0, 1, 1))
    t.row(0, 0, [CELL] * 3)
    t.ignore(3, 0, 1)
    t.cell(6, 0, CELL)


@CHAPTER.test('GP1(01h) ends a store: status bit 27 is 0 again.', OWN)
def store_ended(t: Draft) -> None:
    t.packet(store(0, 0, 4, 1))
    t.stat(1 << 27, mask=1 << 27)
    t.gp1(CLEAR)
    t.stat(0, mask=1 << 27)


@CHAPTER.test('Of a quad that GP1(01h) cuts after its third vertex nothing is drawn.', OWN)
def quad_after_three(t: Draft) -> None:
    t.open()
    t.packet(0x28000000 | RED, 0, 16, 16 << 16)
    t.gp1(CLEAR)


@CHAPTER.test('GP1(01h) leaves the settings.')
def settings_stay(t: Draft) -> None:
    t.open()
    t.before(0xE1000123, mask_setting(force=True))
    t.gp1(0x04000002, CLEAR)
    t.packet(rectangle(RED, 5, 5, 1, 1))
    t.cell(5, 5, CELL | 0x8000)
    t.stat(0x40000923, mask=0x60000FFF)


@CHAPTER.test('GP1(00h) drops the words of an unfinished packet, too.')
def reset_drops(t: Draft) -> None:
    t.packet(rectangle(0x00FF00, 0, 0, 3, 3)[:2])
    t.gp1(0)
    t.open()
    t.packet(rectangle(RED, 0, 0, 1, 1))
    t.cell(0, 0, CELL)


@CHAPTER.test('GP1(00h) leaves video memory.')
def reset_leaves_cells(t: Draft) -> None:
    t.given(4, 4, 2, [0x1234, 0x8765])
    t.gp1(0)


@CHAPTER.test('GP1(00h) puts the settings back: the offset, the mask setting and the window.')
def reset_settings(t: Draft) -> None:
    t.before(0xE2FFFFFF, 0xE5003C14, mask_setting(force=True, keep=True))
    t.gp1(0)
    t.open()
    t.given(0, 0, 1, [0x8000])
    t.packet(rectangle(RED, 0, 0, 1, 1))
    t.cell(0, 0, CELL)
    t.stat(0, mask=3 << 11)


@CHAPTER.test('After GP1(00h) each bit of the display mode is 0, and the status is 14802000h.',
              section='1F801814h GPUSTAT GPU Status Register (R)')
def reset_status(t: Draft) -> None:
    for mode in (0xFF, 0x04, 0x08, 0x10, 0x20, 0x40, 0x80):
        t.gp1(0x08000000 | mode, 0)
        t.stat(0x14802000, mask=0x7FFFDFFF)


@CHAPTER.test('GP1(00h) ends a load, a polyline and a store, too.', OWN)
def reset_ends(t: Draft) -> None:
    for words in (load(0, 0, 8, 1, [0x1111] * 8)[:5], [0x48000000, 0, 0], store(0, 0, 4, 1)):
        t.packet(words)
        t.gp1(0)
        t.stat(1 << 26, mask=1 << 27 | 1 << 26)
    t.open()
    t.packet(rectangle(RED, 6, 0, 1, 1))
    t.row(0, 0, [0x1111] * 4)
    t.ignore(0, 0, 1)           # the polyline's first segment
    t.cell(6, 0, CELL)
