"""Recordings for the tests of the page: made by hand, with values that are known, and those of the benchmark."""
import lzma
import os

from tests.viewer.page import ROOT

from psxgpu.capture import (Capture, display_start, draw_mode, drawing_area, drawing_offset, fill, load, polygon, rectangle,
                            screen)

BUSY = os.path.join(ROOT, 'bench', 'busy-second.capture.xz')
VALLEY = os.path.join(ROOT, 'bench', 'valley.capture.xz')


def unpacked(path):
    """The bytes of an .xz file."""
    with lzma.open(path) as file:
        return file.read()


def two_buffers(frames=4):
    """Frames of 320 by 240 that are drawn below and above in turn, and shown after that: a fill and three squares each."""
    out = Capture(2).gp1(screen(0, 0, 320, 240))
    for frame in range(frames):
        top = 240 * (1 - frame % 2)
        out.gp0(drawing_area(0, top, 319, top + 239), drawing_offset(0, top), draw_mode(0), fill(0x400000, 0, top, 320, 240))
        for k in range(3):
            out.gp0(rectangle(0x2000 * (k + 1) + frame, 20 + 60 * k, 30, 40, 40))
        out.gp1(display_start(0, top))
    return out.bytes()


def covered():
    """Squares that cover cells once, twice and three times: (10, 10) once, (20, 20) twice, (30, 30) three times. A fill
    before them covers 64 by 64 cells, so each has one more."""
    out = Capture(2).gp1(screen(0, 0, 320, 240)).gp0(drawing_area(0, 0, 319, 239), fill(0, 0, 0, 64, 64))
    for at in (8, 16, 24):
        out.gp0(rectangle(0x0000FF, at, at, 40, 40))
    return out.gp1(display_start(0, 0)).bytes()


def palette_page():
    """A page of 4 bits at (640, 0) whose first row of texels has the indices 0 to 15, drawn as a square."""
    cells = [0x3210, 0x7654, 0xBA98, 0xFEDC]
    colors = [0x0000, *(0x0421 * k for k in range(1, 16))]
    out = Capture(2).gp1(screen(0, 0, 320, 240)).gp0(drawing_area(0, 0, 319, 239), load(640, 0, 4, 1, cells),
                                                    load(0, 480, 16, 1, colors))
    square = [(10, 10), (26, 10), (10, 11), (26, 11)]
    out.gp0(polygon(square, 0x808080, [(0, 0), (16, 0), (0, 1), (16, 1)], page=0x00A, palette=0x7800, raw=True))
    return out.gp1(display_start(0, 0)).bytes()


def read_by_dma(count=3):
    """A recording whose DMA reads from the port into main memory, so that opening it plays it."""
    out = Capture(1).gp1(screen(0, 0, 320, 240)).gp0(fill(0x0000FF, 0, 0, 16, 16))
    for _ in range(count):
        out.gp0(0xC0000000, 0, 0x00020002)
        out.dma(2, 0, 0x00010002, 0x01000200)
    return out.bytes()
