"""The data port: information, and the latch."""
from __future__ import annotations

from psxgpu.capture import information, store
from psxgpu.conformance.suite import HAND, OWN, PSX_SPX, Chapter, Draft

CHAPTER = Chapter('reads', 'GP1(10h) Get GPU Info, 1F801810h GPUREAD')


def info(name: str, says: str, words: list[int], index: int, expected: int, mask: int, decides: str = PSX_SPX) -> None:
    def write(t: Draft) -> None:
        t.packet(words)
        t.gp1(information(index))
        t.read(expected, mask=mask)
    CHAPTER.add(name, says, decides, HAND, write)


info('window', 'Information 2 is the texture window.', [0xE20ABCDE], 2, 0xABCDE, 0xFFFFF)
info('top-left', 'Information 3 is the top left of the drawing area.', [0xE3000000 | 0x155 << 10 | 0x2AA], 3, 0x556AA,
     0xFFFFF)
info('bottom-right', 'Information 4 is the bottom right of the drawing area.', [0xE4000000 | 0x0AA << 10 | 0x155], 4,
     0x2A955, 0xFFFFF)
info('offset', 'Information 5 is the drawing offset.', [0xE52AAAAA], 5, 0x2AAAAA, 0x3FFFFF)
info('version', 'Information 7 is the version, 2.', [], 7, 2, 0xFFFFFF)
info('zero', 'Information 8 is 0.', [], 8, 0, 0xFFFFFFFF)
info('upper-bits', 'The upper bits of an information are 0, also after a word of other bits.', [0xE20ABCDE], 2,
     0x000ABCDE, 0xFFFFFFFF, OWN)
info('window-of-20-bits', 'The texture window has 20 bits.', [0xE2FFFFFF], 2, 0x000FFFFF, 0xFFFFFFFF)
info('corner-of-19-bits', 'A corner of the drawing area has 19 bits.', [0xE4FFFFFF], 4, 0x0007FFFF, 0xFFFFFFFF, OWN)
info('offset-of-22-bits', 'The drawing offset has 22 bits.', [0xE5FFFFFF], 5, 0x003FFFFF, 0xFFFFFFFF)


@CHAPTER.test('0, 1, 6 and 9 leave what the last information was.')
def others_leave_it(t: Draft) -> None:
    t.gp1(information(7))
    for index in (0, 1, 6, 9, 15):
        t.gp1(information(index))
        t.read(2)


@CHAPTER.test('11h is as 10h.')
def opcode_11(t: Draft) -> None:
    t.gp1(0x11000007)
    t.read(2)


@CHAPTER.test('The information is that of the time of GP1(10h), and may be read again.', OWN)
def read_again(t: Draft) -> None:
    t.packet(0xE2012345)
    t.gp1(information(2))
    t.packet(0xE2054321)
    t.read(0x12345, 0x12345)


@CHAPTER.test('Without a store and without information a read returns 0.', OWN)
def at_first(t: Draft) -> None:
    t.read(0)


@CHAPTER.test('A read after a store returns the store\'s last word again.', OWN)
def after_a_store(t: Draft) -> None:
    t.given(0, 0, 2, [0x1111, 0x2222])
    t.packet(store(0, 0, 2, 1))
    t.read(0x22221111, 0x22221111)


@CHAPTER.test('An open store goes before an information.', OWN)
def store_before_information(t: Draft) -> None:
    t.given(0, 0, 2, [0x1111, 0x2222])
    t.packet(store(0, 0, 2, 1))
    t.gp1(information(7))
    t.read(0x22221111)


@CHAPTER.test('A reset keeps the latch.', OWN)
def reset_keeps_it(t: Draft) -> None:
    t.gp1(information(7), 0)
    t.read(2)


@CHAPTER.test('The lowest four bits of GP1(10h) choose the information.')
def index_of_four_bits(t: Draft) -> None:
    t.gp1(0x10FFFFF7)
    t.read(2)


@CHAPTER.test('20h to 3Fh leave what the last information was.', OWN)
def opcodes_20_to_3f(t: Draft) -> None:
    t.gp1(information(7))
    for opcode in range(0x20, 0x40):
        t.gp1(opcode << 24 | 8)
    t.read(2)
