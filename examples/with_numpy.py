#!/usr/bin/env python3
"""Words from an array of numpy, a picture into another one, and a recording as a GIF by PIL:

    python3 examples/with_numpy.py ramp.png
    python3 examples/with_numpy.py cube.gif examples/cube.capture.gz
"""
import sys

import numpy
from PIL import Image

import psxgpu
from psxgpu.capture import drawing_area, screen


def ramp():
    """Returns a picture of 32 bars, each redder than the one before."""
    bars = numpy.arange(32, dtype=numpy.uint32)
    words = numpy.stack([0x60000000 | 8 * bars, 10 * bars, numpy.full_like(bars, 240 << 16 | 10)], axis=1)
    picture = numpy.empty((240, 320, 4), numpy.uint8)
    with psxgpu.Machine() as machine:
        for word in screen(0, 0, 320, 240):
            machine.gp1(word)
        machine.gp0(drawing_area(0, 0, 319, 239))
        machine.gp0(words)                      # 32 rectangles of three words
        machine.picture_rgba(into=picture)
    return Image.fromarray(picture)


def film(path):
    """Returns the frames of a recording as pictures."""
    for frame in psxgpu.Recording(path).frames():
        pixels = numpy.frombuffer(frame.rgba, numpy.uint8).reshape(frame.height, frame.width, 4)
        yield Image.fromarray(pixels).convert('RGB')


def main(out, *recordings):
    """Writes the ramp, or the film of a recording."""
    pictures = [picture for path in recordings for picture in film(path)] or [ramp()]
    more = {'save_all': True, 'append_images': pictures[1:], 'duration': 20} if recordings else {}
    pictures[0].save(out, **more)


if __name__ == '__main__':
    if len(sys.argv) < 2:
        sys.exit(__doc__)
    main(*sys.argv[1:])
