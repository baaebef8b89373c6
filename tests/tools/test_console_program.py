"""Tests of the program that runs on the console: its assembler against GNU as, and what it does on a bare processor."""
import random
import re
import shutil
import subprocess
import unittest

from psxgpu import console
from psxgpu.capture import Capture, drawing_area, fill, line, load, rectangle, store
from psxgpu.console import image
from psxgpu.console.assembler import assemble
from tests import support
from tests.tools.console_support import BEGINS, build_processor, events, events_of

WELL = r'done .* overflow 0 early 0 lost 0 hazards 0 waits 0$'


class Assembler(support.InFolder):
    def test_words(self):
        """By hand, from the encodings of psx-spx."""
        for text, word in (('nop', 0), ('lui $t0, 0x1F80', 0x3C081F80), ('lw $t3, 4($s1)', 0x8E2B0004),
                           ('addiu $t2, $t2, -1', 0x254AFFFF), ('jr $ra', 0x03E00008), ('move $t8, $s0', 0x0200C025),
                           ('a: b a', 0x1000FFFF), ('j 0x80010000', 0x08004000), ('divu $zero, $s6, $t2', 0x02CA001B),
                           ('sll $t0, $t0, 2', 0x00084080), ('.half 1, 2', 0x00020001), ('.word %hi(0x8001)', 1)):
            with self.subTest(text):
                self.assertEqual(assemble(text, 0x80010000, {})[0], word.to_bytes(4, 'little'))

    def test_faults(self):
        for text, said in (('add $t0', 'line 1: add $t0: no instruction add'),
                           ('\nj away', 'line 2: j away: no name away'), ('lw $t0, $t1', 'no address'),
                           ('.data', 'no directive .data'), ('move $t0, $x', "'x'")):
            with self.subTest(text), self.assertRaisesRegex(ValueError, re.escape(said)):
                assemble(text, 0, {})

    @unittest.skipUnless(shutil.which('mipsel-linux-gnu-as'), 'no mipsel-linux-gnu-as')
    def test_gnu_as_makes_the_same_bytes(self):
        for text in (image.source(bytes(1 << 20)), image.source(data='.align 2\nwrong: .word 0\n')):
            with self.subTest(text[-80:]):
                self.expect_same(text)

    def expect_same(self, text):
        ours, _ = assemble(text, image.ADDRESS, image.NAMES)
        source = self.write('a.s', '.set noreorder\n.set nomacro\n.set noat\n.text\n.globl start\n' + text)
        flags = [word for name, value in image.NAMES.items() for word in ('--defsym', '%s=%d' % (name, value))]
        made, linked, whole = map(self.path, ('a.o', 'a.elf', 'a.bin'))
        for words in (['as', '-march=r3000', '-EL', '-mno-pdr', *flags, source, '-o', made],
                      ['ld', '-EL', '-Ttext=%#x' % image.ADDRESS, '-e', 'start', made, '-o', linked],
                      ['objcopy', '-O', 'binary', '-j', '.text', linked, whole]):
            subprocess.run(['mipsel-linux-gnu-' + words[0], *words[1:]], check=True)
        self.assertEqual(self.read('a.bin')[:len(ours)], ours)


@support.needs_player
@unittest.skipUnless(shutil.which('gcc'), 'no gcc')
class Bare(support.InFolder):
    """A console loses nothing: the queue never overflows, no read is early, no load is used in its delay slot."""

    @classmethod
    def setUpClass(cls):
        cls.place = support.tempfile.TemporaryDirectory()
        cls.processor = build_processor(cls.place.name)

    @classmethod
    def tearDownClass(cls):
        cls.place.cleanup()

    def run_on_it(self, path, *settings, **options):
        """What the bare console says of the program of a capture, and what reached its ports."""
        with open(path, 'rb') as file:
            program = self.write('a.exe', console.executable(file.read(), **options))
        done = subprocess.run([self.processor, program, self.path('out'), '2000000000', *settings],
                              stdout=subprocess.PIPE, check=True, text=True)
        return done.stdout.splitlines(), events_of(self.read('out'))

    def expect_well(self, capture, *settings, **options):
        path = capture
        if isinstance(capture, Capture):
            path = self.write('a.capture', capture.bytes())
        said, found = self.run_on_it(path, *settings, **options)
        self.assertRegex(said[-1], WELL)
        wanted = events(path)
        self.assertEqual(found[BEGINS:BEGINS + len(wanted)], wanted)

    def test_nothing_is_lost(self):
        r = random.Random(1)
        cells = [r.getrandbits(16) for _ in range(999)]
        self.expect_well(Capture().gp0(drawing_area(0, 0, 319, 239), line([(k * 7 % 300, k) for k in range(200)], 255)))
        self.expect_well(Capture().gp0(fill(7, 0, 0, 64, 64), load(1, 2, 27, 37, cells), load(9, 50, 27, 37, cells),
                                       load(0, 0, 64, 64, [9] * 4096), rectangle(1, 2, 3, 4, 5)))
        self.expect_well(Capture().gp0(store(0, 0, 3, 3)).read(5).gp1(0x01000000).gp0(store(0, 0, 2, 2)).read(2))
        for name in ('textured-frame', 'turns', 'read-back'):
            with self.subTest(name):
                self.expect_well(support.example(name))

    def test_packed(self):
        """Blocks of deflate of each type: cells that no one can pack are stored, few words have the fixed codes."""
        r = random.Random(2)
        for bits in (16, 9, 1):
            cells = [r.getrandbits(bits) for _ in range(60000)]
            self.expect_well(Capture().gp0(load(0, 0, 300, 200, cells), [rectangle(k, k, 2, 3, 4) for k in range(99)],
                                           load(9, 9, 300, 200, cells)), '100', packs=True)
        self.expect_well(Capture().gp0(rectangle(1, 2, 3, 4, 5)), packs=True)
        self.expect_well(support.example('textured-frame'), packs=True)

    def test_a_slow_gpu(self):
        self.expect_well(Capture().gp0([rectangle(1, 2, 3, 4, 5)] * 20), '300000')

    def test_marks_are_blanks(self):
        capture = self.write('a.capture', Capture().gp0(0).gp1(0x3F000001, 0x05000000, 0x3F000002, 0x3F000003).bytes())
        for blanks, least in (('marks', 3), ('flips', 1), ('none', 0)):
            said, _ = self.run_on_it(capture, blanks=blanks)
            self.assertIn(' blanks %d ' % least, said[-1])

    def test_what_it_says(self):
        """The bare GPU draws nothing and reads 0: a part with a cell differs."""
        capture = Capture().gp0(fill(0xFFFFFF, 0, 0, 64, 64), fill(0xFFFFFF, 512, 256, 16, 1))
        said, found = self.run_on_it(self.write('a.capture', capture.bytes()), check=True)
        self.assertEqual(said[:-1], ['VIDEO MEMORY: 002 OF 128 PARTS DIFFER', 'READS: 000 DIFFER',
                                     'WAITS TOO LONG: 000'])
        self.assertEqual((found.count(('gp0', 0x60006000)), found.count(('gp0', 0x600000FF))), (126, 2))
        self.assertRegex(said[-1], WELL)

    def test_reads_that_differ(self):
        capture = Capture().gp0(fill(0xFFFFFF, 0, 0, 16, 16), store(0, 0, 2, 1)).read()
        said, _ = self.run_on_it(self.write('a.capture', capture.bytes()), check=True)
        self.assertEqual(said[1], 'READS: 001 DIFFER')
