"""Tests of the command `psxgpu to-exe`."""
import contextlib
import os
import random

from psxgpu import console
from psxgpu.capture import Capture, fill, load, store
from tests import support
from tests.tools.console_support import follow


@support.needs_player
class ToExe(support.InFolder):
    def make(self, path, *words):
        done = support.run_tool('to-exe', path, '-o', self.path('a.exe'), *words)
        return done.returncode, done.stdout, done.stderr

    def test_writes_the_program(self):
        capture = Capture().gp0(fill(1, 0, 0, 16, 16))
        path = self.write('a.capture', capture.bytes())
        for words, options in (([], {}), (['--check'], {'check': True}), (['--blanks', 'none'], {'blanks': 'none'})):
            self.assertEqual(self.make(path, *words), (0, '', ''))
            self.assertEqual(self.read('a.exe'), console.executable(capture.bytes(), **options))

    def test_head(self):
        """The head of a PS-X EXE, as psx-spx has it: start, size, stack."""
        self.make(self.write('a.capture', Capture().stat().bytes()))
        program = self.read('a.exe')
        words = [int.from_bytes(program[at:at + 4], 'little') for at in range(0x10, 0x38, 4)]
        self.assertEqual(words, [0x80010000, 0, 0x80010000, len(program) - 2048, 0, 0, 0, 0, 0x801FFF00, 0])
        self.assertEqual(program[2048 + 8:2048 + 12], b'PSXT')

    def test_warnings(self):
        capture = Capture().gp0(store(0, 0, 2, 2), store(0, 0, 2, 2)).read(2).read()
        status, _, said = self.make(self.write('a.capture', capture.bytes()))
        self.assertEqual((status, said.count('\n')), (0, 3))
        for text in ('1 packets begin while a store is open', '1 stores begin while another one is open',
                     '1 words are read while no store is open'):
            self.assertIn('%s: %s' % (self.path('a.capture'), text), said)

    def refused(self, path, *words):
        with contextlib.suppress(FileNotFoundError):
            os.remove(self.path('a.exe'))
        status, out, said = self.make(path, *words)
        self.assertEqual((status, out, os.path.exists(self.path('a.exe')), said.count('\n')), (2, '', False, 1), said)
        return said

    def test_the_old_file_stays(self):
        self.write('a.exe', b'old')
        self.assertEqual(self.make(support.example('list-loop'))[0], 2)
        self.assertEqual(self.read('a.exe'), b'old')
        path = self.write('a.exe', Capture().stat().bytes())
        self.assertIn('is also the input', self.make(path)[2])

    def test_what_is_too_large_is_packed(self):
        r = random.Random(1)
        cells = [r.getrandbits(4) for _ in range(1 << 17)]
        capture = Capture()
        for k in range(8):
            capture.gp0(load(0, 0, 512, 256, [cell + k for cell in cells]))
        path = self.write('a.capture', capture.bytes())
        self.assertEqual(self.make(path), (0, '', ''))
        self.assertEqual(self.read('a.exe'), console.executable(capture.bytes(), packs=True))

    def frames_of(self, *words):
        """The words of GP0 of a program, after the 18 of its beginning."""
        self.assertEqual(self.make(self.path('a.capture'), *words)[0], 0)
        return [word for kind, *rest in follow(self.read('a.exe'))[24:] if kind == 'gp0' for word in rest]

    def test_frames(self):
        """A stretch has the state before it, and then what the capture has."""
        capture = Capture()
        for k in range(1, 5):
            capture.gp0(fill(k << 3, 16 * k, 0, 16, 2)).gp1(0x3F000000 + k)
        self.write('a.capture', capture.bytes())
        four = [fill(k << 3, 16 * k, 0, 16, 2) for k in range(1, 5)]
        end = [0x02000000, 0, 0]        # what shows the picture
        self.assertEqual(self.frames_of('--frames', '2'), four[0] + four[1] + end)
        words = self.frames_of('--from', '2', '--frames', '1')
        self.assertEqual(words[-6:], four[2] + end)
        self.assertEqual(words[0], 0xE6000000)
        quarters = [words[at:at + 3] for at in range(1, 1 + 4 * 65539, 65539)]
        self.assertEqual(quarters, [[0xA0000000, y << 16 | x, 0x01000200] for y in (0, 256) for x in (0, 512)])
        row = words[4:4 + 256]
        self.assertEqual(row, [0] * 8 + [0x00010001] * 8 + [0x00020002] * 8 + [0] * 232)
        self.assertEqual(words[1 + 4 * 65539:-6], [k << 24 for k in range(0xE1, 0xE7)])

    def test_frames_by_flips_and_with_something_open(self):
        capture = Capture().gp0(fill(1, 0, 0, 16, 16)[:2]).gp1(0x05000000).gp0(0x00100010).gp1(0x05000400)
        capture.gp0(0xE1000005)
        self.write('a.capture', capture.bytes())
        self.assertEqual(self.frames_of('--from', '1')[-4:], [0xE1000005, 0x02000000, 0, 0])
        self.assertEqual(self.frames_of('--from', '1')[4], 0)
        self.assertIn('it has 2 frames', self.refused(self.path('a.capture'), '--from', '3'))
        self.write('a.capture', Capture().gp0(0x20000000).gp1(0x05000000).bytes())
        self.assertIn('what is unfinished after frame 1', self.refused(self.path('a.capture'), '--from', '1'))

    def test_refusals(self):
        self.assertIn('1024 rows', self.refused(support.example('tall')))
        self.assertIn('list-loop at event 8', self.refused(support.example('list-loop')))
        self.assertIn('not a capture: a snapshot', self.refused(self.write('s', b'PSXGPUS1' + bytes(64))))
        r = random.Random(1)
        large = Capture()
        for _ in range(8):
            large.gp0(load(0, 0, 512, 256, [r.getrandbits(16) for _ in range(1 << 17)]))
        self.assertIn('no memory for more than 1900544 bytes of packed',
                      self.refused(self.write('large', large.bytes())))
