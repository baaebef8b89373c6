"""The words of registers: E1h to E6h of GP0, and the control words of GP1. As in `words`, each function gives a list of
words, and a number that does not fit its field is a ValueError that names the field."""
from typing import List

from psxgpu.words import bits, within

# The shown widths: bits of the display mode, and cycles of a pixel.
WIDTHS = {256: (0x00, 10), 320: (0x01, 8), 368: (0x40, 7), 512: (0x02, 5), 640: (0x03, 4)}


def draw_mode(page: int = 0, dither: bool = False, draw_to_display: bool = False, flip_x: bool = False,
              flip_y: bool = False) -> List[int]:
    """Returns the word of E1h. page: as `texture_page` gives it."""
    if bits('draw_mode page', page, 12) & 0x600:
        raise ValueError('draw_mode page: %x is not the attribute of a page' % page)
    return [0xE1000000 | page | bool(dither) << 9 | bool(draw_to_display) << 10 | bool(flip_x) << 12
            | bool(flip_y) << 13]


def texture_window(mask_x: int, mask_y: int, offset_x: int, offset_y: int) -> List[int]:
    """Returns the word of E2h, in steps of 8 texels."""
    return [0xE2000000 | bits('texture_window mask_x', mask_x, 5) | bits('texture_window mask_y', mask_y, 5) << 5
            | bits('texture_window offset_x', offset_x, 5) << 10 | bits('texture_window offset_y', offset_y, 5) << 15]


def drawing_area(x1: int, y1: int, x2: int, y2: int) -> List[int]:
    """Returns the words of E3h and E4h. Both corners are inside. Y has nine bits, in tall video memory ten."""
    return [0xE3000000 | bits('drawing_area x1', x1, 10) | bits('drawing_area y1', y1, 10) << 10,
            0xE4000000 | bits('drawing_area x2', x2, 10) | bits('drawing_area y2', y2, 10) << 10]


def drawing_offset(x: int, y: int) -> List[int]:
    """Returns the word of E5h: X and Y from -1024 to 1023."""
    return [0xE5000000 | (within('drawing_offset y', y, -1024, 1023) & 0x7FF) << 11
            | within('drawing_offset x', x, -1024, 1023) & 0x7FF]


def mask_setting(force: bool = False, keep: bool = False) -> List[int]:
    """Returns the word of E6h. force: bit 15 is set in what is written; keep: cells whose bit 15 is 1 stay."""
    return [0xE6000000 | bool(force) | bool(keep) << 1]


def reset() -> List[int]:
    """Returns the control word that resets the GPU."""
    return [0x00000000]


def clear_commands() -> List[int]:
    """Returns the control word that drops what is unfinished."""
    return [0x01000000]


def clear_interrupt() -> List[int]:
    """Returns the control word that clears the interrupt bit."""
    return [0x02000000]


def display_on(on: bool = True) -> List[int]:
    """Returns the control word that turns the display on or off."""
    return [0x03000000 | (not on)]


def dma_direction(direction: int) -> List[int]:
    """Returns the control word of the DMA direction, from 0 to 3."""
    return [0x04000000 | bits('dma_direction', direction, 2)]


def display_start(x: int, y: int) -> List[int]:
    """Returns the control word of the first cell that is shown."""
    return [0x05000000 | bits('display_start x', x, 10) | bits('display_start y', y, 10) << 10]


def horizontal_range(x1: int, x2: int) -> List[int]:
    """Returns the control word of the shown range of a row, in cycles of the video clock."""
    return [0x06000000 | bits('horizontal_range x1', x1, 12) | bits('horizontal_range x2', x2, 12) << 12]


def vertical_range(y1: int, y2: int) -> List[int]:
    """Returns the control word of the shown rows."""
    return [0x07000000 | bits('vertical_range y1', y1, 10) | bits('vertical_range y2', y2, 10) << 10]


def display_mode(mode: int) -> List[int]:
    """Returns the control word of the display mode."""
    return [0x08000000 | bits('display_mode', mode, 8)]


def information(index: int) -> List[int]:
    """Returns the control word that asks for register `index`."""
    return [0x10000000 | bits('information', index, 4)]


def screen(x: int, y: int, w: int, h: int) -> List[int]:
    """Returns the words that show w by h cells from (x, y), 15 bits a cell: w is 256, 320, 368, 512 or 640, h up to
    256."""
    if w not in WIDTHS:
        raise ValueError('screen width: %r is none of %s' % (w, ', '.join(map(str, WIDTHS))))
    mode, cycles = WIDTHS[w]
    return (display_mode(mode) + horizontal_range(0x200, 0x200 + w * cycles)
            + vertical_range(0x10, 0x10 + within('screen height', h, 1, 256)) + display_start(x, y) + display_on())
