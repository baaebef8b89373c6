"""Tests of the orders that a test program for the console follows: they do to the GPU what the capture does."""
import random
from array import array

from psxgpu import console
from psxgpu.capture import (Capture, drawing_area, fill, line, load, mask_setting, polygon, rectangle, store)
from psxgpu.console.image import Image
from psxgpu.stream import GP0, READ
from tests import support
from tests.tools.console_support import BEGINS, events, follow


@support.needs_player
class Orders(support.InFolder):
    def expect_alike(self, capture, packs=False):
        """The program of a capture, or of the file of one, does the same; what it does after that is returned."""
        path = capture
        if isinstance(capture, Capture):
            path = self.write('a.capture', capture.bytes())
        with open(path, 'rb') as file:
            program = console.executable(file.read(), packs=packs)
        self.assertEqual(program[:8], b'PS-X EXE')
        self.assertEqual(len(program) % 2048, 0)
        found, wanted = follow(program), events(path)
        self.assertEqual(found[BEGINS:BEGINS + len(wanted)], wanted)
        return found[BEGINS + len(wanted):]

    def test_examples(self):
        for name in ('flips', 'read-back', 'smear', 'textured-frame', 'turns', 'two-fills'):
            with self.subTest(name):
                self.expect_alike(support.example(name))

    def test_begins_from_nothing(self):
        """A reset in words, all of video memory filled with 0, E1h to E6h of 0."""
        found = follow(console.executable(Capture().stat().bytes()))[:BEGINS]
        self.assertEqual([word for kind, word in found if kind == 'gp1'],
                         [0, 0x04000000, 0x05000000, 0x06C00200, 0x07040010, 0x08000000])
        self.assertEqual([word for kind, word in found if kind == 'gp0'],
                         [word for corner in (0, 0x200, 0x1000000, 0x1000200)
                          for word in (0x02000000, corner, 0x1000200)] + [k << 24 for k in range(0xE1, 0xE7)])

    def test_cut_packets(self):
        """A capture may end, and a control word may come, at any word."""
        r = random.Random(3)
        cells = [r.getrandbits(15) for _ in range(999)]
        pieces = [drawing_area(0, 0, 319, 239), load(3, 4, 27, 37, cells), fill(1, 0, 0, 64, 64),
                  line([(k, 3 * k) for k in range(9)], list(range(9))), mask_setting(True, True),
                  load(40, 4, 200, 30, [5] * 6000), load(3, 80, 27, 37, cells),
                  polygon([(0, 0), (9, 0), (0, 9), (9, 9)], [1, 2, 3, 4]), rectangle(7, 1, 2, 3, 4)]
        words = [word for piece in pieces for word in piece]
        for end in (1, 2, 3, 4, 5, 6, 40, 508, 512, 520, 530, len(words) - 9, len(words) - 1):
            with self.subTest(end):
                capture = Capture().gp0(words[:end]).stat().gp1(0x3F000001).gp0(words[end:end + 9]).gp1(0x04000001)
                self.expect_alike(capture.gp0(words[end + 9:]))
                self.expect_alike(Capture().gp0(words[:end]))

    def test_resets_and_reads(self):
        capture = Capture()
        capture.gp0(store(0, 0, 3, 3)).read(2).gp1(0x01000000).read(2).gp0(0xA0000000, 0, 0x40004, 1, 2).gp1(0)
        capture.gp0(store(0, 0, 3, 3)).read(5).gp0(0x48000000, 1, 2, 3).gp1(0x01000000).gp0(0x60000000, 0)
        self.expect_alike(capture)

    def test_the_display_is_on_at_the_end(self):
        on = ('gp1', 0x03000000)
        self.assertEqual(self.expect_alike(Capture().gp0(fill(1, 0, 0, 16, 16)))[0], on)
        self.assertEqual(self.expect_alike(Capture().gp1(0x03000000)), [])
        self.assertEqual(self.expect_alike(Capture().gp1(0x03000000, 0x03000001)),
                         [on, ('gp0', 0x02000000), ('gp0', 0), ('gp0', 0)])
        self.assertEqual(self.expect_alike(Capture().gp0(0x60000000)), [on])

    def test_equal_loads_take_little(self):
        r = random.Random(1)
        cells = [r.getrandbits(16) for _ in range(4096)]
        once, many = (len(console.executable(Capture().gp0([load(0, 0, 64, 64, cells)] * n).bytes())) for n in (1, 50))
        self.assertLessEqual(many - once, 2048)
        self.expect_alike(Capture().gp0([load(0, 0, 64, 64, cells)] * 3))

    def test_packed(self):
        """Orders of each kind, longer than a segment, and at each place of its end."""
        r = random.Random(5)
        cells = [r.getrandbits(16) for _ in range(20000)]
        pieces = [load(0, 0, 200, 100, cells), [word for k in range(2000) for word in rectangle(k, k % 99, 2, 3, 4)],
                  line([(k % 300, 3) for k in range(5000)], 7), load(0, 0, 200, 100, [3] * 20000), store(0, 0, 2, 2)]
        self.expect_alike(Capture().gp0(pieces).read(2), packs=True)

    def test_ends_of_segments(self):
        """Orders of packets and data that end at each place near the end of a segment."""
        r = random.Random(6)
        cells = [r.getrandbits(16) for _ in range(8000)]
        for n in range(40, 75):
            words = [0] * n + load(0, 0, 16, 500, cells) + polygon([(0, 0), (9, 0), (0, 9)], 1) + store(0, 0, 2, 1)
            image = Image('none', packs=True)
            image.take(GP0, len(words), array('I', words))
            image.take(READ, 1, array('I'))
            image.end(0)
            wanted = [('gp0', word) for word in words] + [('read',)]
            self.assertEqual(follow(image.executable())[BEGINS:BEGINS + len(wanted)], wanted)

    def test_packed_data_are_small(self):
        r = random.Random(1)
        cells = [r.getrandbits(4) for _ in range(20000)]
        capture = Capture().gp0([load(0, 0, 200, 100, cells)])
        plain, packed = (len(console.executable(capture.bytes(), packs=packs)) for packs in (False, True))
        self.assertLess(packed - 8192, (plain - 8192) / 3)
