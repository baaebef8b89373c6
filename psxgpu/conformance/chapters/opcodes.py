"""Opcodes without a name, mirrors, and the length of packets."""
from __future__ import annotations

from psxgpu.capture import draw_mode, rectangle
from psxgpu.conformance.suite import HAND, OWN, PSX_SPX, Chapter, Draft

CHAPTER = Chapter('opcodes', 'GPU Command Summary')
RED, CELL = 0x0000FF, 0x001F


def one_word(opcodes: tuple[int, ...], decides: str, name: str, says: str) -> None:
    """Words that do nothing, each before a rectangle of one cell."""
    def write(t: Draft) -> None:
        t.open()
        for at, opcode in enumerate(opcodes):
            t.packet(opcode << 24 | 0x123456, rectangle(RED, at, 0, 1, 1))
            t.cell(at, 0, CELL)
    CHAPTER.add(name, says, decides, HAND, write)


one_word((0x00,), PSX_SPX, 'gp0-00', '00h is one word that does nothing.')
one_word((0x01,), PSX_SPX, 'gp0-01', '01h is one word, and no cell changes.')
one_word(tuple(range(0x03, 0x1F)), OWN, 'gp0-03-to-1e', '03h to 1Eh are each one word that does nothing.')
one_word(tuple(range(0x04, 0x1F)), PSX_SPX, 'gp0-04-to-1e', '04h to 1Eh are each one word that does nothing.')
one_word((0xE0, *range(0xE7, 0x100)), OWN, 'gp0-e0-e7-to-ff', 'E0h and E7h to FFh are each one word that does nothing.')


def lengths(name: str, says: str, packets: list[list[int]]) -> None:
    """Polygons of no area: after each a rectangle shows where the next packet began."""
    def write(t: Draft) -> None:
        t.open()
        for at, words in enumerate(packets):
            t.packet(words, rectangle(RED, at, 0, 1, 1))
            t.cell(at, 0, CELL)
    CHAPTER.add(name, says, PSX_SPX, HAND, write, 'GPU Render Polygon Commands')


COLORS, POINT = 0x00FF00, 0x00640064
lengths('polygon-lengths', 'Polygons have 4, 5, 7 and 9 words, and 6, 8, 9 and 12 where they are shaded.', [
    [0x20000000] + [POINT] * 3, [0x28000000] + [POINT] * 4, [0x24000000] + [POINT, 0] * 3,
    [0x2C000000] + [POINT, 0] * 4, [0x30000000, POINT] + [COLORS, POINT] * 2, [0x38000000, POINT] + [COLORS, POINT] * 3,
    [0x34000000, POINT, 0] + [COLORS, POINT, 0] * 2, [0x3C000000, POINT, 0] + [COLORS, POINT, 0] * 3])


@CHAPTER.test('E1h has no effect on cells, and the words of a packet may come one by one.')
def words_one_by_one(t: Draft) -> None:
    t.open()
    for word in rectangle(RED, 2, 2, 2, 2) + draw_mode():
        t.packet(word)
        t.gp1(0x04000000)
    t.box(2, 2, 2, 2, CELL)


@CHAPTER.test('GP1 opcodes repeat every 40h: 43h is 03h.', section='GPU Display Control Commands (GP1)')
def gp1_mirror(t: Draft) -> None:
    t.gp1(0x03000001, 0x43000000)
    t.stat(0, mask=1 << 23)
    t.gp1(0xC3000001)
    t.stat(1 << 23, mask=1 << 23)


@CHAPTER.test('GP1 opcodes 0Ah to 0Fh and 20h to 3Fh do nothing.', OWN, section='GPU Display Control Commands (GP1)')
def gp1_unknown(t: Draft) -> None:
    t.open()
    t.gp1(0x03000000, 0x04000001)
    for opcode in (*range(0x0A, 0x10), *range(0x20, 0x40)):
        t.gp1(opcode << 24 | 0x00FFFFFF)
    t.packet(rectangle(RED, 0, 0, 1, 1))
    t.cell(0, 0, CELL)
    t.stat(1 << 29, mask=0x60FF0000)
