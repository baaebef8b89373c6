"""The workloads of the benchmark: lists of GP0 words, and what they move. `WORKLOADS` has them in the order of the
table."""
import functools
import gzip
import os
import sys

try:
    import lzma
except ImportError:
    lzma = None


from psxgpu.capture import (GP0, GP1, clut, copy, draw_mode, drawing_area, fill, line, load, polygon, records,
                     rectangle, texture_page)

PAGE4, PAGE8, PAGE15 = (texture_page(x, 256, depth) for x, depth in ((512, 0), (640, 1), (768, 2)))
UPPER15 = texture_page(768, 0, 2)
PALETTE = clut(0, 500)


# How much a unit of the table is.
UNITS = {'Mpixel/s': 1e6, 'Mword/s': 1e6, 'frame/s': 1}


class Numbers:
    """Numbers without a pattern, the same in every run."""

    def __init__(self, seed=1):
        self.state = seed

    def below(self, n):
        self.state = (1664525 * self.state + 1013904223) % 2 ** 32
        return (self.state >> 8) % n

    def color(self):
        return self.below(1 << 24)


class Workload:
    """`words(n)`: `start`, then the words of n pieces of work. Each piece is `size` pixels, words or frames."""

    def __init__(self, name, unit, size, count, piece, start=()):
        self.name, self.unit, self.size, self.count = name, unit, size, count
        self.piece, self.start = piece, list(start)

    def words(self, count):
        numbers, out = Numbers(), list(self.start)
        for k in range(count):
            out += self.piece(k, numbers)
        return out


class Recorded(Workload):
    """A recording whose frames are repeated. A frame is what is between two writes of the display start."""

    def __init__(self, name, count, file):
        super().__init__('real: ' + name, 'frame/s', 1, count, None)
        self.file = os.path.join(os.path.dirname(os.path.dirname(os.path.abspath(__file__))), file)

    @functools.cached_property
    def frames(self):
        """The words of GP0 before the first write of the display start, and then those of each frame."""
        with (gzip if self.file.endswith('.gz') else lzma).open(self.file) as file:
            data = file.read()
        out = [[]]
        for kind, _, words in records(data)[1]:
            if kind == GP0:
                out[-1] += words
            elif kind == GP1 and words[0] >> 24 & 0x3F == 5:
                out.append([])
        return out[:-1]

    def words(self, count):
        self.start, *frames = self.frames
        out = list(self.start)
        for k in range(count):
            out += frames[k % len(frames)]
        return out


def textures():
    """Loads the three pages and the palettes: no texel is 0, and every texel's bit 15 is 0."""
    numbers = Numbers(7)
    words = load(0, 500, 256, 1, [1 + numbers.below(0x7FFF) for _ in range(256)])
    for x in (512, 640):
        words += load(x, 256, 128, 256, [numbers.below(65536) for _ in range(128 * 256)])
    return words + load(768, 256, 256, 256, [1 + numbers.below(0x7FFF) for _ in range(256 * 256)])


AREA = drawing_area(0, 0, 1023, 499)
TEXTURES = textures() + AREA
# Triangles in a box of 100 by 100, and their area.
SHAPES = [[(0, 0), (100, 30), (40, 100)], [(0, 20), (100, 0), (70, 100)], [(0, 100), (30, 0), (100, 60)]]
CELLS = sum(abs((b[0] - a[0]) * (c[1] - a[1]) - (b[1] - a[1]) * (c[0] - a[0])) for a, b, c in SHAPES) / 6


def triangle(size, **settings):
    """Triangles whose boxes have this size, drawn in the left half of video memory's upper half."""
    shaded = settings.pop('shaded', False)
    textured = 'page' in settings

    def piece(k, numbers):
        x, y = numbers.below(512 - size), numbers.below(256 - size)
        places = [(x + u * size // 100, y + v * size // 100) for u, v in SHAPES[k % 3]]
        color = [numbers.color() for _ in range(3)] if shaded else numbers.color()
        texture = [(u * size // 100, v * size // 100) for u, v in SHAPES[k % 3]] if textured else None
        return polygon(places, color, texture=texture, **settings)
    return piece


def at_the_edge(k, numbers):
    """Triangles of 100x100 whose boxes reach into their own texture page, by the first row or by the first columns."""
    x, y = (768 + numbers.below(156), 170 + numbers.below(80)) if k % 2 else (680 + numbers.below(80), numbers.below(156))
    places = [(x + u, y + v) for u, v in SHAPES[k % 3]]
    return polygon(places, numbers.color(), texture=SHAPES[k % 3], page=PAGE15 if k % 2 else UPPER15, raw=True)


def turned(size):
    """Triangles as recorded work has them: shaded, half transparent, with a texture that is turned and scaled."""
    def piece(k, numbers):
        x, y = numbers.below(512 - size), numbers.below(256 - size)
        places = [(x + u * size // 100, y + v * size // 100) for u, v in SHAPES[k % 3]]
        texture = [(v * size * 3 // 200, (100 - u) * size * 3 // 200) for u, v in SHAPES[k % 3]]
        return polygon(places, [numbers.color() for _ in range(3)], texture=texture, semi=True, **PALETTED)
    return piece


def palettes(k, numbers):
    """Sprites, each with another palette than the one before."""
    return rectangle(numbers.color(), numbers.below(504), numbers.below(248), 8, 8,
                     texture=(numbers.below(64), numbers.below(64)), palette=clut(16 * (k % 16), 500))


def streamed(k, numbers):
    """A texture of 64x64 texels of four bits is loaded, and drawn once."""
    at = k % 4
    cells = STREAM[numbers.below(len(STREAM))]
    return load(512 + 16 * at, 256, 16, 64, cells) + rectangle(
        numbers.color(), numbers.below(448), numbers.below(192), 64, 64, texture=(64 * at, 0), palette=PALETTE)


def tile(size, depth=None, **settings):
    """Rectangles of this size, flat or textured."""
    def piece(k, numbers):
        x, y = numbers.below(512 - size), numbers.below(256 - size)
        texture = (numbers.below(64), numbers.below(64)) if depth is not None else None
        palette = PALETTE if texture else 0
        return rectangle(numbers.color(), x, y, size, size, texture=texture, palette=palette, **settings)
    return piece


def fills(k, numbers):
    return fill(numbers.color(), 16 * numbers.below(48), numbers.below(256), 256, 256)


def copies(k, numbers):
    return copy(numbers.below(256), numbers.below(256), 512 + numbers.below(256), numbers.below(256), 256, 256)


def loads(k, numbers):
    return load(numbers.below(960), numbers.below(448), 64, 64, [numbers.below(65536)] * 4096)


def lines(k, numbers):
    x, y = 100 + numbers.below(312), 100 + numbers.below(200)
    dx, dy = ((100, 37), (61, 100), (-100, 80), (-23, 100), (100, 0), (0, 100))[k % 6]
    return line([(x, y), (x + dx, y + dy)], numbers.color())


def state(k, numbers):
    return [(0xE1000000, 0xE2000000, 0xE5000000, 0xE6000000)[k % 4] | numbers.below(64) * (k % 4 != 3)]


def frame(k, numbers):
    """A tenth of a frame: ground, bodies, sprites, lines and a fill, in the shares of a game of the time."""
    words = fill(numbers.color(), 0, 0, 320, 24) if k % 10 == 0 else []
    for j in range(12):
        words += triangle(32, page=PAGE4, palette=PALETTE)(j, numbers)
        words += triangle(16, page=PAGE4, palette=PALETTE, shaded=True)(j, numbers)
    for j in range(6):
        words += triangle(48, shaded=True)(j, numbers) + triangle(24)(j, numbers)
        words += draw_mode(PAGE8) + tile(16, 8)(j, numbers)
    return words + tile(64, semi=True)(0, numbers) + lines(k, numbers)


PALETTED = {'page': PAGE4, 'palette': PALETTE}
DITHER = draw_mode(dither=True)
STREAM = [[(1 + 7919 * i * (j + 3)) % 65536 for i in range(1024)] for j in range(8)]
PIXELS, WORDS, FRAMES = UNITS

WORKLOADS = [
    Workload('fill 256x256', PIXELS, 65536, 8000, fills),
    Workload('triangle 100x100 flat', PIXELS, CELLS, 20000, triangle(100), AREA),
    Workload('triangle 100x100 gouraud', PIXELS, CELLS, 8000, triangle(100, shaded=True), AREA),
    Workload('triangle 100x100 gouraud, dithered', PIXELS, CELLS, 6000, triangle(100, shaded=True), AREA + DITHER),
    Workload('triangle 100x100 15-bit raw', PIXELS, CELLS, 5000, triangle(100, page=PAGE15, raw=True), TEXTURES),
    Workload('triangle 100x100 4-bit modulated', PIXELS, CELLS, 4000, triangle(100, **PALETTED), TEXTURES),
    Workload('triangle 100x100 4-bit modulated, dithered', PIXELS, CELLS, 4000, triangle(100, **PALETTED),
             TEXTURES + DITHER),
    Workload('rectangle 64x64 flat', PIXELS, 4096, 40000, tile(64), AREA),
    Workload('rectangle 64x64 B/2+F/2', PIXELS, 4096, 15000, tile(64, semi=True), AREA),
    Workload('rectangle 64x64 B+F', PIXELS, 4096, 15000, tile(64, semi=True), AREA + draw_mode(1 << 5)),
    Workload('rectangle 64x64 4-bit modulated', PIXELS, 4096, 6000, tile(64, 4), TEXTURES + draw_mode(PAGE4)),
    Workload('rectangle 64x64 8-bit modulated', PIXELS, 4096, 6000, tile(64, 8), TEXTURES + draw_mode(PAGE8)),
    Workload('rectangle 64x64 15-bit raw', PIXELS, 4096, 8000, tile(64, 15, raw=True), TEXTURES + draw_mode(PAGE15)),
    Workload('copy 256x256', PIXELS, 65536, 2000, copies),
    Workload('load 64x64', PIXELS, 4096, 2000, loads),
    Workload('line of length 100', PIXELS, 101, 60000, lines, AREA),
    Workload('sprite 8x8 4-bit raw', PIXELS, 64, 200000, tile(8, 4, raw=True), TEXTURES + draw_mode(PAGE4)),
    Workload('sprite 8x8 4-bit modulated', PIXELS, 64, 150000, tile(8, 4), TEXTURES + draw_mode(PAGE4)),
    Workload('triangle 8x8 flat', PIXELS, CELLS * 0.0064, 200000, triangle(8), AREA),
    Workload('triangle 8x8 4-bit modulated', PIXELS, CELLS * 0.0064, 80000, triangle(8, **PALETTED), TEXTURES),
    Workload('triangle 16x16 4-bit gouraud', PIXELS, CELLS * 0.0256, 50000, triangle(16, shaded=True, **PALETTED),
             TEXTURES),
    *[Workload('triangle %dx%d turned, gouraud, dithered, half' % (size, size), PIXELS, CELLS * (size / 100) ** 2,
               count, turned(size), TEXTURES + DITHER) for size, count in ((8, 60000), (16, 30000), (32, 12000))],
    Workload('sprite 8x8, palettes in turn', PIXELS, 64, 150000, palettes, TEXTURES + draw_mode(PAGE4)),
    Workload('texture 64x64 loaded and drawn', PIXELS, 4096, 3000, streamed, TEXTURES + draw_mode(PAGE4)),
    Workload('triangle 100x100 15-bit raw, edge of its page', PIXELS, CELLS, 2000, at_the_edge, TEXTURES),
    Workload('rectangle 64x64 15-bit raw, own page', PIXELS, 4096, 3000, tile(64, 15, raw=True),
             AREA + draw_mode(texture_page(0, 0, 2))),
    Workload('rectangle 64x64 4-bit modulated, own page', PIXELS, 4096, 3000, tile(64, 4),
             AREA + draw_mode(texture_page(0, 0, 0))),
    Workload('mixed frame', FRAMES, 0.1, 1500, frame, TEXTURES),
    Workload('state words', WORDS, 1, 2000000, state),
]

WORKLOADS += [Recorded('cube', 600, 'examples/cube.capture.gz')]
if lzma:
    WORKLOADS += [Recorded('valley', 300, 'bench/valley.capture.xz'),
                  Recorded('busy second', 300, 'bench/busy-second.capture.xz')]
else:
    print('bench: no rows for the recordings in bench/: this Python has no lzma', file=sys.stderr)
