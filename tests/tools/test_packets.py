"""Packets told apart, and said in words."""
import unittest

from tests import support
from psxgpu import capture as c
from psxgpu.packets.control import class_name, control
from psxgpu.packets.fields import fields
from psxgpu.packets.split import Splitter

ALL_KINDS = [
    ('polygon', c.polygon([(0, 0), (8, 0), (0, 8), (-8, 8)], [1, 2, 3, 4], texture=[(0, 0), (1, 1), (2, 2), (3, 3)],
                          page=c.texture_page(640, 0, 1, 2), palette=c.clut(16, 480), semi=True)),
    ('line', c.line([(0, 0), (2, 0)], [1, 2])), ('load', c.load(0, 0, 3, 1, [1, 2, 3])), ('store', c.store(0, 0, 5, 6)),
    ('copy', c.copy(0, 0, 1, 1, 7, 8)), ('fill', c.fill(5, 0, 0, 16, 1)), ('irq', c.interrupt()), ('nop', c.nop()),
    ('rectangle', c.rectangle(5, -1, 2, 3, 4, texture=(1, 2), palette=c.clut(0, 1))), ('environment', c.mask_setting()),
    ('nop', [0xE0000000]), ('polygon', c.polygon([(0, 0), (8, 0), (0, 8)])), ('rectangle', c.rectangle(0, 0, 0, 8, 8))]


def cut(words, step):
    """Name and words of each packet, the words pushed so many at a time."""
    splitter, out = Splitter(), []
    for at in range(0, len(words), step):
        out += [(name, list(its)) for name, its, _ in splitter.push(words[at:at + step])]
    return out, splitter


class Splits(unittest.TestCase):
    def test_every_kind(self):
        words = [word for _, packet in ALL_KINDS for word in packet]
        want = [(name, packet[:3] if name == 'load' else packet) for name, packet in ALL_KINDS]
        for step in (1, 2, 5, 1000):
            self.assertEqual(cut(words, step)[0], want)

    def test_polylines(self):
        found, splitter = cut(c.line([(0, 0), (2, 0), (2, 2)], 0xFF), 1)
        self.assertEqual(found, [('line', [0x480000FF, 0, 2]),
                                 ('line', [0x480000FF, 0x480000FF, 2, 0x480000FF, 0x20002]), ('finish', [0x50005000])])
        self.assertTrue(splitter.is_idle())
        found, _ = cut(c.line([(0, 0), (2, 0), (2, 2)], [1, 2, 3]), 2)
        self.assertEqual(found[1], ('line', [0x58000001, 2, 2, 3, 0x20002]))

    def test_unfinished_and_reset(self):
        for words in ([0x20000000], [0xA0000000, 0, 0x10002], [0x48000000, 0, 1]):
            splitter = cut(words, 1)[1]
            self.assertFalse(splitter.is_idle())
            splitter.control(0x01000000)
            self.assertTrue(splitter.is_idle())

    def test_registers(self):
        splitter = cut([0xE1000FFF] + ALL_KINDS[0][1], 100)[1]
        # The page of the polygon: 640, 8 bits, B-F; bits 9 and 10 stay, bit 11 counts in tall video memory alone.
        self.assertEqual(splitter.registers[0xE1], 0x6CA)
        splitter.control(0)
        self.assertEqual(set(splitter.registers.values()), {0})


class Words(unittest.TestCase):
    def said(self, words, is_tall=False, **registers):
        splitter = Splitter(is_tall)
        splitter.registers.update((int(name, 16), value) for name, value in registers.items())
        (name, its, _), = list(splitter.push(words))
        return fields(name, its, splitter.registers, splitter.rows)

    def test_polygon(self):
        self.assertEqual(self.said(ALL_KINDS[0][1]), [
            'vertices (0, 0) (8, 0) (0, 8) (-8, 8)', 'colours 1 0 0, 2 0 0, 3 0 0, 4 0 0',
            'texcoords (0, 0) (1, 1) (2, 2) (3, 3)', 'page (640, 0) of 8 bits, palette (16, 480)',
            'semi-transparent B-F'])
        self.assertEqual(self.said(c.polygon([(0, 0), (8, 0), (0, 8)], [1, 1, 1]), E1=0x200, E5=0x3FF801, E6=1),
                         ['vertices (0, 0) (8, 0) (0, 8)', 'colours 1 0 0, 1 0 0, 1 0 0',
                          'dithered, offset (1, -1), mask setting 1'])

    def test_others(self):
        self.assertEqual(self.said(c.rectangle(0x030201, -1, 2, 3, 4, texture=(1, 2), palette=0), E1=0x1105, E2=0x21),
                         ['corner (-1, 2), size 3 by 4', 'colour 1 2 3', 'texcoord (1, 2), X flip',
                          'page (320, 0) of 15 bits, window mask (8, 8) offset (0, 0)'])
        self.assertEqual(self.said(c.copy(1, 2, 3, 4, 1024, 512)), ['source (1, 2), target (3, 4), size 1024 by 512'])
        self.assertEqual(self.said(c.fill(0xFF, 16, 1, 1024, 5)), ['corner (16, 1), size 1024 by 5', 'colour 255 0 0'])
        self.assertEqual(self.said(c.draw_mode(c.texture_page(64, 256, 2, 3), dither=True)),
                         ['draw mode: page (64, 256) of 15 bits, B+F/4, dither'])
        self.assertEqual(self.said(c.drawing_area(1, 2, 3, 4)[1:]), ['drawing area: bottom right (3, 4)'])
        self.assertEqual(self.said(c.mask_setting(keep=True)), ['mask setting: cells with bit 15 are kept'])

    def test_rows_of_video_memory(self):
        """Y has nine bits, ten in the tall profile: 1023 is row 511 of 512 rows. Bit 11 of E1h is of the tall alone."""
        for is_tall, row in ((False, 511), (True, 1023)):
            for packet, text in ((c.copy(1, 0, 3, 0, 4, 5), 'source (1, %d), target (3, %d), size 4 by 5' % (row, row)),
                                 (c.load(1, 0, 1, 1, [0]), 'target (1, %d), size 1 by 1' % row),
                                 (c.store(1, 0, 1, 1), 'source (1, %d), size 1 by 1' % row),
                                 (c.fill(0, 16, 0, 16, 1), 'corner (16, %d), size 16 by 1' % row)):
                places = (1, 2) if packet[0] >> 24 == 0x80 else (1,)
                words = [word | 1023 << 16 if at in places else word for at, word in enumerate(packet)]
                self.assertEqual(self.said(words, is_tall)[0], text)
            corner = [0xE3000000 | 1023 << 10 | 5]
            self.assertEqual(self.said(corner, is_tall), ['drawing area: top left (5, %d)' % row])
            self.assertEqual(control(0x05000000 | 1023 << 10 | 5, row + 1), 'display start (5, %d)' % row)

    def test_texts_are_the_callers(self):
        """A caller may change the lists: texts that are kept stay as they are."""
        for words in (ALL_KINDS[0][1], c.mask_setting(), c.drawing_offset(1, 2)):
            first = self.said(words)
            kept = list(first)
            first.clear()
            self.assertEqual(self.said(words), kept)

    def test_many_words(self):
        """More colours, texture coordinates and vertices than are kept: each has its own text."""
        for k in list(range(3000)) + [0, 1, 2999]:
            found = self.said(c.polygon([(k % 1000, -k % 1000 - 1000), (-1, 1023), (-1024, 0)], [k, 1, 2],
                                        texture=[(k % 256, k // 256), (0, 0), (0, 0)]))
            self.assertEqual(found[:3], ['vertices (%d, %d) (-1, 1023) (-1024, 0)' % (k % 1000, -k % 1000 - 1000),
                                         'colours %d %d 0, 1 0 0, 2 0 0' % (k % 256, k // 256),
                                         'texcoords (%d, %d) (0, 0) (0, 0)' % (k % 256, k // 256)])

    def test_control_words(self):
        self.assertEqual(control(0x05000000 | 16 << 10 | 8, 512), 'display start (8, 16)')
        self.assertEqual(control(0x08000025, 512), 'display mode: width 320, NTSC, double height, interlaced')
        self.assertEqual((control(0x40000000, 512), control(0x1F000007, 512)), ('reset', 'information 7'))
        notes = ((0, 0x1F000000), (8, 0x50005000), (9, 7), (7, 0xE1000000))
        self.assertEqual([class_name(*note) for note in notes], ['irq', 'finish', 'pixels', 'environment'])


@support.needs_player
class Listed(support.InFolder):
    def listed(self, *words):
        return support.run_tool('packets', *words)

    def test_lines_are_those_of_list(self):
        from psxgpu.players import player
        for name in ('turns', 'textured-frame', 'tall', 'read-back', 'flips'):
            want = player.answer(support.PLAYER, ['list'], support.example(name))
            done = self.listed(support.example(name))
            names = 'fill irq nop polygon line rectangle copy load store environment finish'.split()
            heads = [line for line in done.stdout.splitlines() if line[0] != ' ' and line.split()[1] in names]
            self.assertEqual((heads, done.returncode, done.stderr), (want.decode().splitlines(), 0, ''))

    def test_ports(self):
        names = '--name begin --name turn --name skip --name stat'.split()
        self.assertEqual(self.listed(support.example('turns'), *names).stdout.splitlines(),
                         ['15 begin 2 madr 00001000 bcr 00000000 chcr 01000401', '16 turn 1', '18 turn 3', '24 skip',
                          '25 stat'])

    def test_rows(self):
        """A row beyond video memory is one within it, and in both heights the text says which."""
        for version, row in ((1, 511), (3, 1023)):
            capture = c.Capture(version).gp0(c.load(0, 1023, 1, 1, [7])).gp1(0x05000000 | 1023 << 10).bytes()
            done = self.listed(self.write('capture', capture), '--line')
            self.assertEqual([line.partition(' | ')[2] for line in done.stdout.splitlines()],
                             ['target (0, %d), size 1 by 1' % row, 'display start (0, %d)' % row], done)

    def test_filters(self):
        path = self.write('capture', c.Capture().gp0(c.fill(1, 1008, 0, 32, 4), c.fill(2, 0, 8, 16, 1)).bytes())
        done = self.listed(path, '--cell', '8', '2', '--line')
        self.assertEqual(done.stdout, '3 fill 02000001 1008 0 1039 3 | corner (1008, 0), size 32 by 4; colour 1 0 0\n')
        self.assertEqual(self.listed(path, '--events', '4', '9').stdout.split()[:2], ['6', 'fill'])

    def test_refused(self):
        """The lines before the fault, the player's line, and the last packets as `list` has them."""
        done = self.listed(support.example('list-loop'))
        self.assertEqual(done.returncode, 2)
        self.assertEqual(done.stdout.splitlines()[0], '1 environment e3000000 -')
        self.assertEqual(done.stderr.splitlines(), ['psxgpu: list-loop at event 8 node 001100',
                                                    'last: 1 environment e3000000', 'last: 2 environment e403bd3f'])
