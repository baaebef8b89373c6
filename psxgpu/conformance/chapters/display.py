"""The shown picture: GP1(05h) to GP1(08h)."""
from __future__ import annotations

from psxgpu.capture import display_mode, display_start, horizontal_range, vertical_range
from psxgpu.conformance.suite import FORMULA, HAND, OWN, PSX_SPX, Chapter, Draft, Picture

CHAPTER = Chapter('display', 'GPU Display Control Commands (GP1)')
LEFT, TOP = 0x200, 0x10


def wide(value: int) -> bytes:
    """The three bytes of a cell: a channel c is 8 * c + c div 4."""
    return bytes(8 * channel + channel // 4 for channel in (value & 31, value >> 5 & 31, value >> 10 & 31))


def show(t: Draft, x: int, y: int, cycles: int, height: int, mode: int) -> None:
    t.gp1(display_start(x, y), horizontal_range(LEFT, LEFT + cycles), vertical_range(TOP, TOP + height),
          display_mode(mode), 0x03000000)


def size(name: str, says: str, mode: int, cycles: int, height: int, shown: tuple[int, int],
         decides: str = PSX_SPX) -> None:
    def write(t: Draft) -> None:
        show(t, 0, 0, cycles, height, mode)
        t.picture = Picture(*shown, bytes(3 * shown[0] * shown[1]))
    CHAPTER.add(name, says, decides, HAND, write)


size('width-256', 'Mode 0 shows a pixel for 10 cycles.', 0, 320, 2, (32, 2))
size('width-320', 'Mode 1 shows a pixel for 8 cycles.', 1, 256, 2, (32, 2))
size('width-512', 'Mode 2 shows a pixel for 5 cycles.', 2, 160, 2, (32, 2))
size('width-640', 'Mode 3 shows a pixel for 4 cycles.', 3, 128, 2, (32, 2))
size('width-368', 'Bit 6 shows a pixel for 7 cycles, whatever bits 0 and 1 hold.', 0x43, 224, 2, (32, 2))
size('width-rounded', 'The width is rounded to a multiple of 4, from 2 on upward.', 0, 60, 1, (8, 1))
size('width-rounded-down', 'One pixel above a multiple of 4 is dropped.', 0, 50, 1, (4, 1))
size('doubled', 'The height is doubled where bits 2 and 5 are both 1.', 0x24, 80, 3, (8, 6), OWN)
size('doubled-at-640', 'The height is doubled at every width.', 0x27, 128, 3, (32, 6), OWN)
size('not-doubled-by-bit-2', 'Bit 2 alone does not double the height.', 0x04, 80, 3, (8, 3), OWN)
size('not-doubled-by-bit-5', 'Bit 5 alone does not double the height.', 0x20, 80, 3, (8, 3), OWN)


@CHAPTER.test('After a reset 256 by 240 pixels are shown, from the cell (0, 0) on.', section='GP1(00h) Reset GPU')
def after_reset(t: Draft) -> None:
    t.gp1(display_start(5, 6), horizontal_range(0x300, 0x400), vertical_range(0x20, 0x30), display_mode(0x73), 0)
    t.picture = Picture(256, 240, bytes(3 * 256 * 240))


@CHAPTER.test('15 bits: a channel of 5 bits becomes a byte, 31 being 255.', OWN, FORMULA)
def fifteen_bits(t: Draft) -> None:
    cells = [0x0000, 0x001F, 0x03E0, 0x7C00, 0xFFFF, 0x1234, 0x4210, 0x0C63]
    t.given(100, 200, 4, cells)
    show(t, 100, 200, 16, 2, 3)
    t.picture = Picture(4, 2, b''.join(map(wide, cells)))


@CHAPTER.test('The picture continues at X 0 over the right edge, and at row 0 over the bottom.', OWN, FORMULA)
def wraps(t: Draft) -> None:
    t.given(1022, 511, 2, [0x0001, 0x0002])
    t.given(0, 511, 2, [0x0003, 0x0004])
    t.given(1022, 0, 2, [0x0005, 0x0006])
    t.given(0, 0, 2, [0x0007, 0x0008])
    show(t, 1022, 511, 40, 2, 0)
    t.picture = Picture(4, 2, b''.join(map(wide, range(1, 9))))


@CHAPTER.test('24 bits: three bytes a pixel, counted through the cells of a row, the low byte first.', worked=FORMULA)
def twenty_four_bits(t: Draft) -> None:
    row = bytes(range(1, 13))
    t.given(100, 200, 6, [row[at] | row[at + 1] << 8 for at in range(0, 12, 2)])
    show(t, 100, 200, 40, 1, 0x10)
    t.picture = Picture(4, 1, row)


@CHAPTER.test('The bit of GP1(03h) does not blank the picture that is taken.', OWN, FORMULA)
def display_off(t: Draft) -> None:
    t.given(0, 0, 4, [1, 2, 3, 4])
    show(t, 0, 0, 40, 1, 0)
    t.gp1(0x03000001)
    t.picture = Picture(4, 1, b''.join(map(wide, [1, 2, 3, 4])))


def nothing(name: str, says: str, x1: int, x2: int, y1: int, y2: int) -> None:
    def write(t: Draft) -> None:
        t.gp1(horizontal_range(x1, x2), vertical_range(y1, y2), display_mode(0))
        t.wants_no_picture = True
    CHAPTER.add(name, says, OWN, HAND, write)


nothing('no-height', 'A vertical range whose end is its beginning shows nothing.', 0x200, 0x228, 0x20, 0x20)
nothing('no-height-backward', 'A vertical range whose end is before its beginning shows nothing.', 0x200, 0x228, 0x20,
        0x1F)
nothing('no-width', 'A horizontal range whose end is before its beginning shows nothing.', 0x300, 0x2FF, 0x10, 0x12)
nothing('no-width-equal', 'A horizontal range whose end is its beginning shows nothing.', 0x200, 0x200, 0x10, 0x12)
nothing('no-width-one-pixel', 'A width of one pixel is rounded to 0.', 0x200, 0x20A, 0x10, 0x12)


@CHAPTER.test('GP1(05h) has ten bits of X and nine of Y: what is above them is dropped.', OWN, FORMULA)
def start_bits(t: Draft) -> None:
    t.given(100, 200, 4, [1, 2, 3, 4])
    show(t, 0, 0, 40, 1, 0)
    t.gp1(0x05F80000 | 200 << 10 | 100)
    t.picture = Picture(4, 1, b''.join(map(wide, [1, 2, 3, 4])))


@CHAPTER.test('GP1(07h) has ten bits of each Y: what is above them is dropped.')
def vertical_range_bits(t: Draft) -> None:
    show(t, 0, 0, 40, 2, 0)
    t.gp1(0x07F00000 | 0x13 << 10 | 0x10)
    t.picture = Picture(4, 3, bytes(3 * 4 * 3))


@CHAPTER.test('GP1(08h) has eight bits: what is above them is dropped.')
def mode_bits(t: Draft) -> None:
    show(t, 0, 0, 80, 3, 0)
    t.gp1(0x08FFFF00)
    t.picture = Picture(8, 3, bytes(3 * 8 * 3))


@CHAPTER.test('24 bits: the cells of a row continue at X 0 over the right edge.', OWN, FORMULA)
def twenty_four_bits_wraps(t: Draft) -> None:
    row = bytes(range(1, 13))
    cells = [row[at] | row[at + 1] << 8 for at in range(0, 12, 2)]
    t.given(1022, 200, 2, cells[:2])
    t.given(0, 200, 4, cells[2:])
    show(t, 1022, 200, 40, 1, 0x10)
    t.picture = Picture(4, 1, row)


@CHAPTER.test('At first 256 by 240 pixels are shown, from the cell (0, 0) on.', OWN)
def at_first(t: Draft) -> None:
    t.picture = Picture(256, 240, bytes(3 * 256 * 240))


@CHAPTER.test('A doubled picture has twice as many rows of video memory: none is shown twice.', OWN, FORMULA)
def doubled_rows(t: Draft) -> None:
    t.given(100, 200, 4, list(range(1, 17)))
    show(t, 100, 200, 40, 2, 0x24)
    t.picture = Picture(4, 4, b''.join(map(wide, range(1, 17))))
