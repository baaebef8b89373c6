"""Pictures, dumps and captures, read, drawn and compared."""
import gzip
import os
import struct
import subprocess
import unittest
import zlib

from tests import support
from psxgpu import capture as c
from psxgpu.command import ToolError
from psxgpu.difference import Difference, Grid, compared
from psxgpu.image import SIGNATURE, Image, chunk, png, ppm, read_picture, read_png
from psxgpu.vram import cells_of, shown


def filtered(width, height, kind, rows, palette=b''):
    """A PNG with these rows, each with its filter in front."""
    head = struct.pack('>IIBBBBB', width, height, 8, kind, 0, 0, 0)
    middle = chunk(b'PLTE', palette) if palette else b''
    return SIGNATURE + chunk(b'IHDR', head) + middle + chunk(b'IDAT', zlib.compress(rows)) + chunk(b'IEND', b'')


class Files(unittest.TestCase):
    def test_ppm(self):
        for head in (b'P6\n2 1\n255\n', b'P6 2 1 255 ', b'P6\n# a comment\n2\n1 # another\n255\n'):
            image = read_picture(head + b'abcdef')
            self.assertEqual((image.width, image.height, image.pixels), (2, 1, b'abcdef'))
        for bad in (b'P6\n2 1\n255\nabc', b'P6\n', b'P6\n2 1\n65535\nabcdef', b'P6\nx', b'P6\n0 1\n255\n',
                    b'P6\n# only'):
            self.assertRaisesRegex(ToolError, 'a bad PPM', read_picture, bad)

    def test_png_and_back(self):
        image = Image(3, 2, bytes(range(18)))
        for data in (png(image), ppm(image)):
            again = read_picture(data)
            self.assertEqual((again.width, again.height, again.pixels), (3, 2, image.pixels))

    def test_filters(self):
        """Two rows of two pixels (10 20 30, 11 22 33), (12 24 36, 13 26 39), by the formulas of PNG's filters."""
        first, second = [10, 20, 30, 11, 22, 33], [12, 24, 36, 13, 26, 39]
        rows = {1: [12, 24, 36, 1, 2, 3], 2: [2, 4, 6, 2, 4, 6], 3: [7, 14, 21, 2, 3, 5], 4: [2, 4, 6, 1, 2, 3]}
        for kind, row in rows.items():
            data = filtered(2, 2, 2, bytes([0] + first + [kind] + row))
            self.assertEqual(read_png(data).pixels, bytes(first + second), kind)

    def test_colors(self):
        self.assertEqual(read_png(filtered(2, 1, 0, b'\0\5\6')).pixels, b'\5\5\5\6\6\6')
        self.assertEqual(read_png(filtered(1, 1, 6, b'\0\1\2\3\xff')).pixels, b'\1\2\3')
        self.assertEqual(read_png(filtered(2, 1, 3, b'\0\1\0', b'abcdef')).pixels, b'defabc')

    def test_bad_png(self):
        good = png(Image(1, 1, b'abc'))
        for bad in (good[:20], good[:45], SIGNATURE, filtered(1, 1, 2, b'\0ab'), filtered(1, 1, 2, b'\7abc')):
            self.assertRaisesRegex(ToolError, 'a bad PNG', read_png, bad)

    def test_dumps(self):
        cells = cells_of(struct.pack('<H', 0x7C1F) * 1024)
        self.assertEqual((len(cells), shown(cells[:1])), (1024, b'\xff\x00\xff'))
        for bad in (b'', bytes(2047)):
            self.assertRaisesRegex(ToolError, 'neither a dump', cells_of, bad)


class Drawn(support.InFolder):
    def drawn(self, *words):
        done = support.run_tool('picture', self.path('dump'), self.path('out.ppm'), *words)
        self.assertEqual((done.returncode, done.stderr), (0, ''))
        return read_picture(self.read('out.ppm'))

    def test_texels(self):
        row = [0x4321] + [0] * 15 + [0, 0x1F, 0x3E0, 0x7C00, 0x7FFF] + [0] * 1003
        self.write('dump', struct.pack('<1024H', *row))
        image = self.drawn('--bits', '4', '--palette', '16', '0', '--box', '0', '0', '1', '1')
        self.assertEqual((image.width, image.height), (4, 1))
        self.assertEqual(image.pixels, b'\xff\0\0' b'\0\xff\0' b'\0\0\xff' b'\xff\xff\xff')
        self.assertEqual(self.drawn('--bits', '4').pixels[:12], b'\x11' * 3 + b'\x22' * 3 + b'\x33' * 3 + b'\x44' * 3)
        image = self.drawn('--bits', '8')
        self.assertEqual((image.width, image.pixels[:6]), (2048, b'\x21' * 3 + b'\x43' * 3))

    def test_refused(self):
        self.write('dump', bytes(2048))
        for words in ('--box 0 0 1 2', '--box 0 0 0 1', '--bits 4 --palette 0 1'):
            done = support.run_tool('picture', self.path('dump'), self.path('out.png'), *words.split())
            self.assertEqual((done.returncode, done.stderr.count('\n')), (2, 1), done.stderr)
        self.write('dump', b'')
        done = support.run_tool('picture', self.path('dump'), self.path('out.png'))
        self.assertEqual((done.returncode, done.stderr), (2, 'psxgpu picture: %s: neither a dump nor a picture: 0 bytes\n'
                                                          % self.path('dump')))


class Compared(support.InFolder):
    def changed(self, places):
        dump = bytearray(2048 * 8)
        for x, y, cell in places:
            struct.pack_into('<H', dump, 2 * (1024 * y + x), cell)
        return bytes(dump)

    def test_lines(self):
        self.assertEqual(compared(bytes(4096), bytes(4096)).lines(), ['equal'])
        theirs = self.changed([(7, 2, 0x7FFF), (3, 5, 1), (9, 3, 0x8000)])
        difference = compared(bytes(2048 * 8), theirs)
        self.assertEqual(difference.lines(), ['first differing cell: (7, 2): ours 0000, theirs 7fff', 'cells that differ: 3',
                                              'their box: 3 2 9 5', 'by steps: bit 15: 1, 1: 1, 16 to 31: 1'])
        image = difference.image()
        self.assertEqual((image.width, image.height, image.row(2)[21:24]), (1024, 8, b'\xff\x20\x20'))

    def test_tolerance(self):
        """A step in a channel is within 1; bit 15 never is."""
        theirs = self.changed([(7, 2, 0x0421), (3, 5, 2)])
        self.assertEqual(compared(bytes(2048 * 8), theirs, 1).places, [(3, 5)])
        self.assertEqual(compared(bytes(2048 * 8), theirs, 2).count, 0)
        self.assertEqual(compared(bytes(2048 * 8), self.changed([(0, 0, 0x8000)]), 31).count, 1)

    def test_pictures(self):
        grids = [Grid(data, True) for data in (b'P6\n2 1\n255\nabcdef', png(Image(2, 1, b'abcdeh')))]
        self.assertEqual(Difference(*grids).lines(), ['first differing cell: (1, 0): ours 646566, theirs 646568',
                                                      'cells that differ: 1', 'their box: 1 0 1 0', 'by steps: 2: 1'])

    def status(self, ours, theirs, *words):
        paths = [self.write(name, data) for name, data in (('ours', ours), ('theirs', theirs))]
        return support.run_tool('compare', *paths, *words).returncode

    def test_statuses(self):
        self.assertEqual(self.status(bytes(2048), bytes(2048)), 0)
        self.assertEqual(self.status(bytes(2048), b'\1' + bytes(2047)), 1)
        self.assertEqual(self.status(bytes(2048), b'\1' + bytes(2047), '--tolerance', '1'), 0)
        self.assertEqual(self.status(bytes(2048), bytes(4096)), 2)
        self.assertEqual(self.status(bytes(2047), bytes(2047)), 2)
        self.assertEqual(self.status(bytes(2048), ppm(Image(1, 1, b'abc'))), 2)

    def test_side_by_side(self):
        images = [ppm(Image(1, 1, pixel)) for pixel in (b'abc', b'abd')]
        self.status(*images, self.path('d.png'), '--side', self.path('s.png'))
        image = read_png(self.read('s.png'))
        self.assertEqual((image.width, image.height, image.pixels), (3, 1, b'abcabd\xff\x20\x20'))
        self.assertEqual(read_png(self.read('d.png')).pixels, b'\xff\x20\x20')


@support.needs_player
class OfCaptures(support.InFolder):
    """What a capture has drawn, at its end or after an event."""

    def picture(self, *words, status=0):
        done = support.run_tool('picture', *words, cwd=self.folder)
        self.assertEqual((done.returncode, done.stderr.count('\n')), (status, status and 1), done)
        return done.stderr

    def played(self, mode, data):
        return subprocess.run([support.PLAYER, mode], input=data, capture_output=True, check=True).stdout

    def setUp(self):
        super().setUp()
        self.begin = c.Capture().gp1(c.screen(0, 0, 256, 8)).gp0(c.fill(0xFF, 0, 0, 16, 8))
        self.write('in', c.Capture().gp1(c.screen(0, 0, 256, 8)).gp0(c.fill(0xFF, 0, 0, 16, 8),
                                                                     c.fill(0xFF00, 16, 0, 16, 8)).bytes())

    def test_displayed(self):
        self.picture('in', '-o', 'end.ppm')
        self.assertEqual(self.read('end.ppm'), self.played('shot', self.read('in')))
        self.picture('in', 'at.ppm', '--at', '8')
        self.assertEqual(self.read('at.ppm'), self.played('shot', self.begin.bytes()))
        self.picture('in', 'before.ppm', '--at', '10')      # inside the second packet
        self.assertEqual(self.read('before.ppm'), self.read('at.ppm'))

    def test_video_memory(self):
        self.write('vram', self.played('vram', self.begin.bytes()))
        for more in ([], ['--box', '0', '0', '64', '16'], ['--bits', '4', '--box', '0', '0', '16', '16']):
            self.picture('vram', 'dump.ppm', *more)
            self.picture('in', 'capture.ppm', '--at', '8', '--vram', *more)
            self.assertEqual(self.read('capture.ppm'), self.read('dump.ppm'))

    def test_snapshots_and_packed_files_and_pipes(self):
        self.write('part', subprocess.run([support.PLAYER, 'cut', '6', self.path('in')], capture_output=True).stdout)
        self.write('in.gz', gzip.compress(self.read('in')))
        self.picture('in', 'wanted.png', '--at', '9')
        for name in ('part', 'in.gz'):
            self.picture(name, 'got.png', '--at', '9')
            self.assertEqual(self.read('got.png'), self.read('wanted.png'))
        with open(self.path('in'), 'rb') as file:
            done = support.run_tool('picture', '-', '-', '--at', '9', stdin=file, text=False)
        self.assertEqual(done.stdout, self.read('wanted.png'))

    def test_refused(self):
        self.write('cut', self.read('in')[:-9])
        self.write('part', subprocess.run([support.PLAYER, 'cut', '6', self.path('in')], capture_output=True).stdout)
        self.write('none', c.Capture().gp1(c.vertical_range(1, 1)).bytes())
        self.write('dump', bytes(2048))
        for words, text in ((['in', '-o', 'x', '--at', '12'], 'in: it has 11 events'), (['in'], 'name the picture'),
                            (['in', 'x', '-o', 'y'], 'two outputs are named'), (['in', 'in'], 'in is also the input'),
                            (['part', 'x', '--at', '5'], 'part: it begins after event 6'),
                            (['cut', 'x'], 'cut: psxgpu: truncated at'), (['none', 'x'], 'none: psxgpu: no-picture'),
                            (['dump', 'x', '--at', '1'], 'dump: not a capture'),
                            (['dump', 'x', '--vram'], '--vram is for captures')):
            self.assertIn(text, self.picture(*words, status=2))
        self.assertFalse(os.path.exists(self.path('x')))
        with open(self.path('in'), 'rb') as file:
            done = support.run_tool('picture', '-', 'x', stdin=file, cwd=self.folder)
        self.assertIn('standard input: a capture: name its file', done.stderr)
