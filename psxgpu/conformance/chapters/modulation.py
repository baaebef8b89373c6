"""A texel and the colour of the packet."""
from __future__ import annotations

from psxgpu.capture import draw_mode, polygon, rectangle, texture_page
from psxgpu.conformance.suite import FORMULA, OWN, Chapter, Draft, cell

CHAPTER = Chapter('modulation', 'GPU Render Commands: texture and colour (80h is neutral)')
PAGE = texture_page(512, 0, 2)


def product(texel: int, color: int) -> int:
    """A channel: 5 bits by 8 bits."""
    return min(8 * texel * color // 128, 255) // 8


def ramp() -> list[int]:
    """32 cells: red goes up, green down, blue in steps of five."""
    return [cell(at, 31 - at, 5 * at % 32, 1) for at in range(32)]


def modulated(t: Draft, color: int) -> None:
    t.open()
    t.given(512, 0, 32, ramp())
    t.before(draw_mode(PAGE))
    t.packet(rectangle(color, 0, 0, 32, 1, texture=(0, 0)))
    t.row(0, 0, [0x8000 | sum(product(texel >> shift & 31, color >> 8 * at & 0xFF) << shift
                              for at, shift in enumerate((0, 5, 10))) for texel in ramp()])


@CHAPTER.test('The colour 80h in all channels leaves the texel.', worked=FORMULA)
def neutral(t: Draft) -> None:
    modulated(t, 0x808080)
    t.row(0, 0, ramp())


@CHAPTER.test('The colour 0 makes a drawn texel black, and keeps its bit 15.', worked=FORMULA)
def black(t: Draft) -> None:
    modulated(t, 0)
    t.row(0, 0, [0x8000] * 32)


@CHAPTER.test('The colour 40h halves a channel, rounded down.', OWN, FORMULA)
def half(t: Draft) -> None:
    modulated(t, 0x404040)
    t.row(0, 0, [cell((texel & 31) // 2, (texel >> 5 & 31) // 2, (texel >> 10 & 31) // 2, 1) for texel in ramp()])


@CHAPTER.test('A product above 31 becomes 31.', worked=FORMULA)
def saturates(t: Draft) -> None:
    t.open()
    t.given(512, 0, 4, [cell(16, 20, 24), cell(31, 31, 31), cell(28, 17, 16), cell(31, 0, 31)])
    t.before(draw_mode(PAGE))
    t.packet(rectangle(0xFFFFFF, 0, 0, 4, 1, texture=(0, 0)))
    t.row(0, 0, [cell(31, 31, 31), cell(31, 31, 31), cell(31, 31, 31), cell(31, 0, 31)])


@CHAPTER.test('A channel is texel times colour divided by 128, rounded down, each by its own colour.', OWN, FORMULA)
def three_channels(t: Draft) -> None:
    modulated(t, 0xE65933)


@CHAPTER.test('A raw texture takes the texel as it is, whatever the colour.')
def raw(t: Draft) -> None:
    t.open()
    t.given(512, 0, 2, [0x1234, 0xFFFF])
    t.before(draw_mode(PAGE))
    t.packet(rectangle(0x102030, 0, 0, 2, 1, texture=(0, 0), raw=True))
    t.row(0, 0, [0x1234, 0xFFFF])


@CHAPTER.test('A shaded textured polygon multiplies by the shaded colour.', worked=FORMULA)
def shaded(t: Draft) -> None:
    t.open()
    t.given(512, 0, 1, [cell(16, 16, 16)])
    t.packet(polygon([(0, 0), (8, 0), (0, 8), (8, 8)], [0, 0x808080, 0, 0x808080], texture=[(0, 0)] * 4, page=PAGE))
    for y in range(8):
        t.row(0, y, [cell(2 * x, 2 * x, 2 * x) for x in range(8)])


@CHAPTER.test('The raw bit means nothing without a texture.', OWN)
def raw_without_texture(t: Draft) -> None:
    t.open()
    t.packet(0x690000FF, 0, 0x210000FF, 2, 3, 1 << 16 | 2)
    t.cell(0, 0, 0x001F)
    t.cell(2, 0, 0x001F)


@CHAPTER.test('A flat textured polygon multiplies by its colour.')
def flat_polygon(t: Draft) -> None:
    t.open()
    t.given(512, 0, 1, [cell(16, 8, 30)])
    t.packet(polygon([(0, 0), (2, 0), (0, 2), (2, 2)], 0x408040, texture=[(0, 0)] * 4, page=PAGE))
    t.box(0, 0, 2, 2, cell(8, 8, 15))
