#!/usr/bin/env python3
"""Makes the captures of this folder: python3 -m examples.make. docs/CAPTURE.md has the format."""
import os

HERE = os.path.dirname(os.path.abspath(__file__))

from psxgpu.capture import *  # noqa: E402,F403
from examples.textured_frame import textured_frame


def two_fills():
    """A blue screen of 320 by 240 with a red square of 64 by 64 in it."""
    capture = Capture()
    capture.gp1(reset(), screen(0, 0, 320, 240))
    capture.gp0(fill(0x802010, 0, 0, 320, 240), fill(0x0000FF, 128, 88, 64, 64))
    return capture


def smear():
    """A gradient of 32 by 32 cells, and a copy that reads what it has just written: one tile becomes a row of them."""
    capture = Capture()
    shades = [red | green << 5 | 31 << 10 for green in range(32) for red in range(32)]
    capture.gp0(load(64, 64, 32, 32, shades))
    capture.gp0(copy(64, 64, 96, 64, 512, 32))
    return capture


def read_back():
    """The status word while a load is open and after it, and three cells read back: the third read gives the latch."""
    capture = Capture()
    words = load(0, 0, 3, 1, [0x1111, 0x2222, 0x3333])
    capture.gp0(words[:-1]).stat()
    capture.gp0(words[-1:]).stat()
    capture.gp0(store(0, 0, 3, 1)).read(3)
    return capture


def list_loop():
    """A linked list whose second node leads back to itself: it is refused, and nothing of it is drawn."""
    capture = Capture()
    capture.gp0(drawing_area(0, 0, 319, 239))
    capture.ram(0x1000, 0x00001100)
    capture.ram(0x1100, 0x03001100, rectangle(0x0000FF, 8, 8, 32, 32))
    capture.dma(2, 0x1000, 0, LIST)
    return capture


def turns():
    """Version 2: a list is walked node by node, and the processor puts another node in while the walk runs."""
    capture = Capture(2)
    capture.gp0(drawing_area(0, 0, 319, 239))
    capture.ram(0x1000, 0x03001100, rectangle(0x0000FF, 0, 0, 32, 32))
    capture.ram(0x1100, 0x03FFFFFF, rectangle(0x00FF00, 16, 16, 32, 32))
    capture.ram(0x1200, 0x03FFFFFF, rectangle(0xFF0000, 32, 32, 32, 32))
    capture.begin(0x1000, 0, LIST)
    capture.turn()
    capture.ram(0x1100, 0x03001200)
    capture.turn(3)
    capture.gp0(store(16, 16, 2, 1)).skip().stat()
    capture.gp0(store(32, 32, 2, 1)).read()
    return capture


def tall():
    """Version 3: video memory has 1024 rows. A fill below row 511 is shown, and sprites whose page is there."""
    capture = Capture(3)
    capture.gp1(reset(), screen(0, 600, 256, 64))
    capture.gp0(fill(0x804020, 0, 600, 256, 64))
    shades = [0x7FFF if (x ^ y) & 8 else 0x03FF for y in range(32) for x in range(32)]
    capture.gp0(load(512, 768, 32, 32, shades))
    capture.gp0(drawing_area(0, 600, 255, 663), draw_mode(texture_page(512, 768, 2)))
    capture.gp0(drawing_offset(0, 600))
    capture.gp0(rectangle(0x808080, 16, 16, 32, 32, texture=(0, 0)))
    capture.gp0(rectangle(0x0080FF, 64, 16, 32, 32, texture=(0, 0)))
    capture.stat()
    return capture


def flips():
    """Three frames in two buffers: each is drawn in the one that is not shown, and then shown."""
    capture = Capture()
    capture.gp1(reset(), screen(0, 0, 256, 64))
    for frame in range(3):
        y = 256 * (1 - frame % 2)
        capture.gp0(drawing_area(0, y, 255, y + 63), drawing_offset(0, y))
        capture.gp0(fill(0x402010, 0, y, 256, 64), rectangle(0x20FF20, 8 + 40 * frame, 16, 32, 32))
        capture.gp1(display_start(0, y))
    return capture


EXAMPLES = {
    'two-fills': two_fills,
    'textured-frame': textured_frame,
    'smear': smear,
    'read-back': read_back,
    'list-loop': list_loop,
    'turns': turns,
    'tall': tall,
    'flips': flips,
}

if __name__ == '__main__':
    for name, make in EXAMPLES.items():
        make().save(os.path.join(HERE, name + '.capture'))
