"""Semi-transparency: GP0(E1h) bits 5 and 6."""
from __future__ import annotations

from collections.abc import Callable

from psxgpu.capture import draw_mode, line, mask_setting, polygon, rectangle, texture_page
from psxgpu.conformance.packets import RECTANGLES, Kind, marks
from psxgpu.conformance.suite import FORMULA, OWN, PSX_SPX, Chapter, Draft, cell

CHAPTER = Chapter('blending', 'Semi-transparency (GP0(E1h) Draw Mode, bits 5 and 6)')
MODES: tuple[Callable[[int, int], int], ...] = (
    lambda back, front: (back + front) // 2,
    lambda back, front: min(back + front, 31),
    lambda back, front: max(back - front, 0),
    lambda back, front: min(back + front // 4, 31))
NAMES = ('half-and-half', 'sum', 'difference', 'quarter')
SAYS = ('B/2 + F/2', 'B + F, at most 31', 'B - F, at least 0', 'B + F/4, at most 31')


def blends(t: Draft, mode: int, backs: list[int], front: int) -> None:
    """Rectangles of one colour on cells whose channels go through the backs in three orders."""
    t.open()
    count = len(backs)
    given = [cell(back, backs[count - 1 - at], backs[(at + 7) % count]) for at, back in enumerate(backs)]
    t.given(0, 0, count, given)
    t.before(draw_mode(texture_page(0, 0, 0, mode)))
    t.packet(rectangle(8 * front * 0x10101, 0, 0, count, 1, semi=True))
    blend = MODES[mode]
    t.row(0, 0, [cell(*(blend(value >> shift & 31, front) for shift in (0, 5, 10))) for value in given])


def table(mode: int, step: int, fronts: tuple[int, ...], name: str, says: str, decides: str) -> None:
    def write(t: Draft) -> None:
        # A row for each front: the rows share one setup, so each is its own rectangle.
        t.open()
        t.before(draw_mode(texture_page(0, 0, 0, mode)))
        backs = list(range(0, 32, step))
        for y, front in enumerate(fronts):
            t.given(0, y, len(backs), [cell(back, back, back) for back in backs])
            t.packet(rectangle(8 * front * 0x10101, 0, y, len(backs), 1, semi=True))
            t.row(0, y, [MODES[mode](back, front) * 0x421 for back in backs])
    CHAPTER.add(name, says, decides, FORMULA, write)


for _mode, (_name, _text) in enumerate(zip(NAMES, SAYS)):
    _whole = 'where the sum is even' if _mode == 0 else 'where F is a multiple of 4' if _mode == 3 else 'for all B'
    table(_mode, 2 if _mode == 0 else 1, (0, 8, 16, 28), _name,
          'Mode %d is %s, %s.' % (_mode, _text, _whole), PSX_SPX)
table(0, 1, (1, 7, 31), 'half-and-half-rounding', 'Mode 0 adds first and then halves, rounded down.', OWN)
table(3, 1, (1, 7, 31), 'quarter-rounding', 'Mode 3 divides F by 4, rounded down, and then adds.', OWN)


@CHAPTER.test('The three channels are blended apart: none carries into the next.', worked=FORMULA)
def channels_apart(t: Draft) -> None:
    blends(t, 1, [0, 3, 9, 16, 21, 30, 31, 5], 19)


@CHAPTER.test('A packet whose bit 25 is 0 covers what is there.')
def opaque(t: Draft) -> None:
    t.open()
    t.given(0, 0, 1, [0x7FFF])
    t.before(draw_mode(texture_page(0, 0, 0, 1)))
    t.packet(rectangle(0x080808, 0, 0, 1, 1))
    t.cell(0, 0, 0x0421)


@CHAPTER.test('A textured packet is blended only where the texel\'s bit 15 is 1.')
def only_texels_with_bit_15(t: Draft) -> None:
    t.open()
    t.given(512, 0, 2, [cell(2, 2, 2), cell(2, 2, 2, 1)])
    t.given(0, 0, 2, [cell(4, 4, 4)] * 2)
    t.before(draw_mode(texture_page(512, 0, 2, 1)))
    t.packet(rectangle(0, 0, 0, 2, 1, texture=(0, 0), semi=True, raw=True))
    t.row(0, 0, [cell(2, 2, 2), cell(6, 6, 6, 1)])


def textured(t: Draft, back: int, texel: int, results: list[int]) -> None:
    """A textured rectangle and, below it, a textured polygon for each mode, on cells of one colour."""
    t.open()
    t.given(512, 0, 2, [texel] * 2)
    for mode, result in enumerate(results):
        page, x = texture_page(512, 0, 2, mode), 4 * mode
        t.given(x, 0, 2, [back] * 4)
        t.before(draw_mode(page))
        t.packet(0x67000000, x, 0, 1 << 16 | 2)         # with its size as a word: not every emulator knows 6Fh
        t.packet(polygon([(x, 1), (x + 2, 1), (x, 2), (x + 2, 2)], 0, texture=[(0, 0)] * 4, page=page, semi=True,
                         raw=True))
        t.box(x, 0, 2, 2, result)


@CHAPTER.test('Texels are blended by each of the four modes, in rectangles and in polygons.')
def textured_modes(t: Draft) -> None:
    textured(t, cell(8, 12, 20), cell(16, 8, 4, 1),
             [cell(12, 10, 12, 1), cell(24, 20, 24, 1), cell(0, 4, 16, 1), cell(12, 14, 21, 1)])


@CHAPTER.test('Texels are blended with the same rounding: the half of the sum, and F div 4.', OWN)
def textured_rounding(t: Draft) -> None:
    textured(t, cell(7, 12, 31), cell(16, 7, 31, 1),
             [cell(11, 9, 31, 1), cell(23, 19, 31, 1), cell(0, 5, 0, 1), cell(11, 13, 31, 1)])


@CHAPTER.test('The texel 8000h is black and drawn: blended where the packet is semi-transparent.')
def texel_8000(t: Draft) -> None:
    t.open()
    t.given(512, 0, 2, [0x8000] * 2)
    t.given(0, 0, 4, [cell(8, 8, 8)] * 4)
    t.before(draw_mode(texture_page(512, 0, 2, 0)))
    t.packet(rectangle(0, 0, 0, 2, 1, texture=(0, 0), semi=True, raw=True))
    t.packet(rectangle(0, 2, 0, 2, 1, texture=(0, 0), raw=True))
    t.row(0, 0, [cell(4, 4, 4, 1), cell(4, 4, 4, 1), 0x8000, 0x8000])


@CHAPTER.test('A blended cell without texture has bit 15 clear, also where the cell had it.')
def bit_15_of_the_result(t: Draft) -> None:
    t.open()
    t.given(0, 0, 1, [0x8421])
    t.before(draw_mode(texture_page(0, 0, 0, 1)))
    t.packet(rectangle(0x080808, 0, 0, 1, 1, semi=True))
    t.cell(0, 0, 0x0842)


@CHAPTER.test('A textured polygon blends by the mode that it brings with its page.')
def mode_of_the_page(t: Draft) -> None:
    t.open()
    t.given(512, 0, 1, [cell(2, 2, 2, 1)])
    t.given(0, 0, 1, [cell(8, 8, 8)])
    t.before(draw_mode(texture_page(512, 0, 2, 1)))
    t.packet(polygon([(0, 0), (1, 0), (0, 1)], 0, texture=[(0, 0)] * 3, page=texture_page(512, 0, 2, 2), semi=True,
                     raw=True))
    t.cell(0, 0, cell(6, 6, 6, 1))


@CHAPTER.test('Lines are blended, too.')
def lines(t: Draft) -> None:
    t.open()
    t.given(0, 0, 3, [cell(8, 8, 8)] * 3)
    t.before(draw_mode(texture_page(0, 0, 0, 2)))
    t.packet(line([(0, 0), (3, 0)], 0x101010, semi=True))
    t.ignore(3, 0, 1)           # whether the last point is drawn is a test of the chapter lines
    t.row(0, 0, [cell(6, 6, 6)] * 3)


@CHAPTER.test('A cell that the mask test keeps is not blended.')
def kept_by_the_mask(t: Draft) -> None:
    t.open()
    t.given(0, 0, 2, [0x8421, 0x0421])
    t.before(draw_mode(texture_page(0, 0, 0, 1)), mask_setting(keep=True))
    t.packet(rectangle(0x080808, 0, 0, 2, 1, semi=True))
    t.row(0, 0, [0x8421, 0x0842])


@CHAPTER.test('A modulated texel is multiplied before it is blended.')
def modulated_first(t: Draft) -> None:
    t.open()
    t.given(512, 0, 2, [cell(16, 16, 16, 1)] * 2)
    t.given(0, 0, 2, [cell(4, 4, 4)] * 2)
    t.before(draw_mode(texture_page(512, 0, 2, 1)))
    t.packet(rectangle(0x404040, 0, 0, 2, 1, texture=(0, 0), semi=True))
    t.row(0, 0, [cell(12, 12, 12, 1)] * 2)


@CHAPTER.test('A texel is multiplied first and then halved: 15 times 137 is 16, and the half of that is 8.',
              marks=marks(('B/2 + F/2', 'modulation or raw'), Kind(RECTANGLES, 'given size', 'textured')))
def half_of_a_product(t: Draft) -> None:
    t.open()
    t.given(640, 0, 3, [cell(15, 14, 14, 1)] * 3)
    t.before(draw_mode(texture_page(640, 0, 2, 0)))
    t.packet(rectangle(0x808089, 0, 0, 3, 1, texture=(0, 0), semi=True))
    t.row(0, 0, [cell(8, 7, 7, 1)] * 3)
