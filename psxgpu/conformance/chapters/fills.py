"""Fills: GP0(02h)."""
from __future__ import annotations

from psxgpu.capture import drawing_offset, load, mask_setting
from psxgpu.conformance.packets import FILL, marks
from psxgpu.conformance.suite import HAND, PSX_SPX, Chapter, Draft, rgb

CHAPTER = Chapter('fills', 'GP0(02h) Fill Rectangle in VRAM')
COLOR = 0x1FAF57            # its low bits are dropped
CELL = rgb(COLOR)


def fill_words(x: int, y: int, width: int, height: int) -> list[int]:
    return [0x02000000 | COLOR, y << 16 | x, height << 16 | width]


def fills(name: str, says: str, words: list[int], *boxes: tuple[int, int, int, int],
          rules: tuple[str, ...] = ()) -> None:
    """A test of one fill: the boxes that it has to fill."""
    def write(t: Draft) -> None:
        t.packet(words)
        for box in boxes:
            t.box(*box, CELL)
    CHAPTER.add(name, says, PSX_SPX, HAND, write, marks=marks(rules, FILL))


fills('size-and-color', 'A fill sets a box to its colour, 8 bits a channel divided by 8, with bit 15 clear.',
      fill_words(16, 2, 32, 3), (16, 2, 32, 3), rules=('colour',))
fills('x-rounded-down', 'X is rounded down to a multiple of 16.', fill_words(31, 4, 16, 2), (16, 4, 16, 2))
fills('width-rounded-up', 'The width is rounded up to a multiple of 16.', fill_words(32, 4, 17, 2), (32, 4, 32, 2))
fills('width-3f1-is-1024', 'A width of 3F1h is rounded up to 400h, and not masked to 0.', fill_words(0, 7, 0x3F1, 1),
      (0, 7, 1024, 1))
fills('corner-bits', 'X has ten bits and Y nine: what is above them is dropped.', fill_words(0xFC30, 0xFE05, 16, 2),
      (0x30, 5, 16, 2), rules=('bits above the coordinates',))
fills('size-bits', 'The width has ten bits and the height nine: what is above them is dropped.',
      fill_words(0x30, 5, 0x0410, 0x0202), (0x30, 5, 16, 2))
fills('wraps-right', 'A fill over the right edge continues at X 0 of the same row.', fill_words(1008, 9, 32, 2),
      (1008, 9, 16, 2), (0, 9, 16, 2), rules=('wrap in X',))
fills('wraps-bottom', 'A fill over the bottom continues at row 0.', fill_words(64, 511, 16, 2), (64, 511, 16, 1),
      (64, 0, 16, 1), rules=('wrap in Y',))
fills('size-0', 'A fill of width 0 or height 0 fills nothing.', fill_words(16, 16, 0, 4) + fill_words(16, 16, 16, 0),
      rules=('size 0',))


@CHAPTER.test('A fill is not cut by the drawing area, nor moved by the drawing offset.')
def ignores_area_and_offset(t: Draft) -> None:
    t.open(8, 8, 11, 11)
    t.before(drawing_offset(100, 50))
    t.packet(fill_words(0, 8, 16, 4))
    t.box(0, 8, 16, 4, CELL)


@CHAPTER.test('A fill neither tests nor forces bit 15, whatever GP0(E6h) holds.',
              marks=marks(('mask set', 'mask kept', 'bit 15 is cleared'), FILL))
def ignores_the_mask_setting(t: Draft) -> None:
    t.before(load(0, 0, 2, 1, [0xFFFF, 0x8000]), mask_setting(force=True, keep=True))
    t.packet(fill_words(0, 0, 16, 1))
    t.box(0, 0, 16, 1, CELL)
