"""Textures as pictures, and how often cells are covered."""
from __future__ import annotations

import collections
import os
import unittest
import zlib
from array import array
from typing import List

from tests import support
from psxgpu import capture as c
from psxgpu.heat.counting import Frame
from psxgpu.heat.picture import Counts, often_of, parts_of
from psxgpu.machine import Missing, library
from psxgpu.packets.texels import rectangle_span
from psxgpu.players.questions import Questions, cells_of_box
from psxgpu.stream import READ, SKIP, STAT
from psxgpu.textures.collect import Ages
from psxgpu.textures.sources import Source, polygon_span, source_of, windowed

RED, BLUE, WHITE = 0x001F, 0x7C00, 0xFFFF


def rgba_rows(data: bytes) -> List[bytes]:
    """The rows of a PNG of four bytes a pixel, as `textures` writes them: one IDAT, no filter."""
    at = data.index(b'IDAT')
    size = int.from_bytes(data[at - 4:at], 'big')
    rows = zlib.decompress(data[at + 4:at + 4 + size])
    width = 4 * int.from_bytes(data[16:20], 'big')
    return [rows[k + 1:k + 1 + width] for k in range(0, len(rows), width + 1)]


class Ranges(unittest.TestCase):
    def test_polygon(self) -> None:
        """The edge after the last texel is left out if the distance is a multiple of eight."""
        self.assertEqual(polygon_span([0, 16, 16]), (0, 15))
        self.assertEqual(polygon_span([0, 15, 15]), (0, 15))
        self.assertEqual(polygon_span([7, 7, 7]), (7, 7))

    def test_rectangle(self) -> None:
        self.assertEqual(rectangle_span(8, 16, False), (8, 23))
        self.assertEqual(rectangle_span(23, 16, True), (8, 23))
        self.assertEqual(rectangle_span(250, 16, False), (0, 255))

    def test_window(self) -> None:
        """Mask 3 and offset 1 in steps of 8: bits 3 and 4 are replaced, so 0 to 31 show 8 to 15."""
        self.assertEqual(windowed((0, 31), 3, 1), (8, 15))
        self.assertEqual(windowed((0, 31), 0, 1), (0, 31))

    def test_source(self) -> None:
        registers = dict(zip(range(0xE1, 0xE7), (0x0A, 0, 0, 0, 0, 0)))
        words = c.rectangle(0, 1, 2, 8, 4, texture=(5, 6), palette=c.clut(32, 300))
        found = source_of('rectangle', words, registers)
        self.assertEqual(found, Source((640, 0), 4, (32, 300), 0, (5, 6, 12, 9)))
        self.assertEqual(found and found.boxes(), [(641, 6, 3, 4), (32, 300, 16, 1)])
        self.assertIsNone(source_of('rectangle', c.rectangle(0, 1, 2, 8, 4), registers))
        registers[0xE2] = 3 | 1 << 10       # mask 3 and offset 1 in X, in steps of 8
        found = source_of('rectangle', words, registers)
        self.assertEqual(found and found.text(), 'page (640, 0) of 4 bits, palette (32, 300), '
                         'window mask (24, 0) offset (8, 0), u 8 to 15, v 6 to 9')


class Written(unittest.TestCase):
    def test_ages(self) -> None:
        """What is written over the right edge counts for the left one, too."""
        ages = Ages(512)
        ages.write((1000, 10, 1030, 20), 7)
        self.assertEqual([ages.of(ages.tiles(box)) for box in ((0, 0, 8, 8), (960, 16, 8, 8), (64, 0, 8, 8), (0, 32, 8, 8))],
                         [7, 7, 0, 0])

    def test_counts(self) -> None:
        """A fill over the right edge, and sums of a box: 16 bits a cell."""
        frame = Frame()
        frame.areas = [(1023, 0, 1024, 0)]
        self.assertEqual(parts_of((1023, 0, 1024, 0), 512), [(1023, 0, 1023, 0), (0, 0, 0, 0)])
        frame.sums[0, 0, 2, 1] = 2 | 5 << 16
        counts = Counts(frame, 512)
        self.assertEqual((list(counts.cells[:3]), counts.cells[1023]), ([3, 5, 0], 1))
        self.assertEqual((counts.total(), counts.covered()), (9, 3))

    def test_counts_apart(self) -> None:
        """Boxes without a common cell are counted without the cells between them, with the same result."""
        frame = Frame()
        frame.areas, frame.sums[0, 0, 2, 1] = [(8, 2, 9, 3)], 2 | 5 << 16
        counts = Counts(frame, 512)
        self.assertEqual(counts.often, {2: 1, 5: 1, 1: 4, 0: 34})
        self.assertEqual(often_of(counts.cells), counts.often)

    def test_full_channel(self) -> None:
        """A channel that may be full is not added."""
        frame = Frame()
        self.assertTrue(frame.add((0, 0, 2, 1), bytes([30, 0, 0xC0, 3])))
        self.assertFalse(frame.add((0, 0, 2, 1), bytes([31, 0, 0, 0])))
        self.assertEqual(frame.sums, {(0, 0, 2, 1): 30 | 30 << 16})


class Boxes(unittest.TestCase):
    def test_cells(self) -> None:
        """A box over the right and the lower edge continues at the opposite ones; an odd number of cells is filled up
        with 0."""
        cells = array('H', [0]) * (1024 * 512)
        cells[511 * 1024 + 1023], cells[511 * 1024], cells[1023], cells[0] = 1, 2, 3, 4
        memory = memoryview(cells.tobytes())
        self.assertEqual(array('H', cells_of_box(memory, (1023, 511, 2, 2))).tolist(), [1, 2, 3, 4])
        self.assertEqual(array('H', cells_of_box(memory, (1023, 511, 1, 1))).tolist(), [1, 0])

    def test_often(self) -> None:
        """Counts above 255 have two bytes."""
        for counts in ([0, 3, 3, 255], [0, 3, 3, 256, 1000]):
            self.assertEqual(often_of(array('H', counts)), collections.Counter(counts))


@support.needs_player
class Answers(unittest.TestCase):
    def test_both_ways(self) -> None:
        """The library and the program give the same answers, whatever the recording itself reads in between."""
        questions = Questions(False)
        questions.words([*c.fill(0x0000FF, 0, 0, 16, 2), *c.store(0, 0, 2, 2)])
        for kind, count in ((READ, 1), (STAT, 1), (SKIP, 1)):
            questions.record(kind, count, [])
            questions.ask((14, 1, 3, 1))
        questions.words(c.fill(0x00FF00, 0, 0, 16, 1))
        questions.ask((0, 0, 1, 2))
        want = [(number, array('H', [31, 31, 0, 0]).tobytes()) for number in range(3)]
        want.append((3, array('H', [31 << 5, 31]).tobytes()))
        self.assertEqual(list(questions.answers_of_program(support.PLAYER)), want)
        try:
            library()
        except Missing:
            self.skipTest('no library is built')
        self.assertEqual(list(questions.answers_of_library()), want)


@support.needs_player
class Commands(support.InFolder):
    def capture(self) -> str:
        """A texture of two texels in two palettes, and a second version of it."""
        out = c.Capture().gp0(c.drawing_area(0, 0, 319, 239), c.draw_mode(c.texture_page(640, 0, 0)))
        out.gp0(c.load(640, 0, 1, 1, [0x0210]), c.load(0, 300, 16, 1, [0, RED, WHITE] + [0] * 13))
        out.gp0(c.load(16, 300, 16, 1, [0, BLUE, WHITE] + [0] * 13))
        for palette in (0, 16, 0):
            out.gp0(c.rectangle(0, 10, 10, 4, 1, texture=(0, 0), palette=c.clut(palette, 300), raw=True))
        out.gp0(c.load(640, 0, 1, 1, [0x0100]))
        out.gp0(c.rectangle(0, 10, 10, 4, 1, texture=(0, 0), palette=c.clut(0, 300), raw=True))
        return self.write('a.capture', out.bytes())

    def test_textures(self) -> None:
        done = support.run_tool('textures', self.capture(), '-o', self.path('out'), '--half')
        self.assertEqual((done.returncode, done.stderr), (0, ''))
        self.assertEqual(done.stdout, '3 textures, 0 of them parts of others; 3 questions for 11 packets\n')
        names = sorted(name for name in os.listdir(self.path('out')) if name.startswith('640x0-4-'))
        rows = sorted(rgba_rows(self.read(os.path.join('out', name)))[0] for name in names)
        none, white = bytes(4), b'\xff\xff\xff\x80'
        red, blue = b'\xff\0\0\xff', b'\0\0\xff\xff'
        want = [none + red + white + none, none + blue + white + none, none + none + red + none]
        self.assertEqual(rows, sorted(want))
        page = self.read('out/index.html').decode()
        self.assertIn('version 2 of 2', page)
        self.assertIn('alt="4 by 1, page (640, 0) of 4 bits', page)
        self.assertIn('palette (0, 300), u 0 to 3, v 0 to 0; event 33, 2 packets', page)

    def test_heat(self) -> None:
        """Two rectangles of 4 by 2 that share two cells; a fill; a cell that is covered 100 times, and 93 are counted
        at once."""
        out = c.Capture().gp0(c.drawing_area(0, 0, 319, 239))
        out.gp0(c.rectangle(0, 16, 0, 4, 2), c.rectangle(9, 18, 1, 4, 2))
        out.gp1(0x3F000001).gp0(c.fill(0, 0, 0, 16, 1)).gp1(0x3F000002)
        for _ in range(100):
            out.gp0(c.rectangle(9, 18, 1, 1, 1))
        path = self.write('a.capture', out.bytes())
        done = support.run_tool('heat', path, self.path('heat.png'), '--frame', '1')
        self.assertEqual((done.returncode, done.stderr), (0, ''))
        self.assertEqual(done.stdout.splitlines(), [
            'frame packets total covered mean most', '1 2 16 14 1.14 2', '2 1 16 16 1.00 1', '3 100 100 1 100.00 100',
            'frame 1, cells 16 0 31 2; by how often: 1: 12, 2: 2'])
        self.assertEqual(self.read('heat.png')[:4], b'\x89PNG')
