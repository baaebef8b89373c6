"""GPU dumps written from captures: a packet for each command, marks, the trace's begin, and round trips."""
import io
import os
import struct
import subprocess
import unittest
from array import array

from tests import support
from tests.tools.dumps_support import ALL_EXAMPLES, RECORDINGS, Taken
from psxgpu import capture as c
from psxgpu.files import opened
from psxgpu.dumps.cutter import Cutter
from psxgpu.dumps.export import About, Export
from psxgpu.dumps.format import CYCLES, HEAD
from psxgpu.dumps.reader import Dump
from psxgpu.players.flat import flattened, is_flat
from psxgpu.stream import GP0, GP1, READ, SKIP, Stream

POLYLINE = [0x48000000, 1, 2, 3, 0x55555555]
SHADED = [0x58000000, 1, 2, 0x50005000, 3, 0x50005000, 0x50005000]      # two of its vertices look like the end


def exported(capture, **about):
    """The packets of a capture's dump, and how many events are left out."""
    stream = Stream(io.BytesIO(capture.bytes()), 'capture')
    export = Export(stream, stream.version == 3, About(**about))
    data = b''.join(export)
    return [(kind, list(words)) for kind, words in Dump(io.BytesIO(data), 'dump')], export.left_out, data


def packets(words, pieces=None):
    """What a cutter makes of words that come in pieces of this size."""
    cutter = Cutter()
    for at in range(0, len(words), pieces or len(words)):
        cutter.push(array('I', words[at:at + (pieces or len(words))]))
    cutter.rest()
    found, out, at = [], list(cutter.take()), 0
    while at < len(out):
        found.append(out[at + 1:at + 1 + out[at]])
        at += 1 + out[at]
    return found


class Commands(unittest.TestCase):
    def test_a_packet_for_each_command(self):
        """However the words come."""
        loads = c.load(0, 0, 3, 3, range(9))
        wanted = [[0xE1000000], c.fill(1, 0, 0, 16, 1), loads, c.polygon([(0, 0), (1, 0), (0, 1)], color=[1, 2, 3]),
                  POLYLINE, SHADED, c.store(0, 0, 2, 1), c.rectangle(1, 2, 3, 8, 8), c.copy(0, 0, 1, 1, 2, 2), [0]]
        words = [word for packet in wanted for word in packet]
        for pieces in (None, 1, 2, 3, 5, 7, 11):
            self.assertEqual(packets(words, pieces), wanted, pieces)

    def test_not_whole(self):
        for words in (c.fill(1, 0, 0, 16, 1)[:2], [0xA0000000, 0], [0xA0000000, 0, 0x20002, 1], POLYLINE[:-1]):
            self.assertEqual(packets([0xE1000000] + words), [[0xE1000000], words])

    def test_a_polyline_without_end(self):
        """The words of one are searched once."""
        words = [0x48000000] + [7] * 300000
        self.assertEqual(packets(words, 1000), [words])
        self.assertEqual(packets(words + [0x50005000], 1000), [words + [0x50005000]])


class Exported(unittest.TestCase):
    def test_capture(self):
        capture = (c.Capture().gp1(3 << 24, 4 << 24, 0x10000007, 0x3F000005).gp0(c.fill(1, 0, 0, 16, 1), [0xE1000000])
                   .read(3).stat(2).gp1(0xBF000001))
        found, left_out, data = exported(capture)
        self.assertTrue(data.startswith(HEAD))
        self.assertEqual([kind for kind, _ in found[:5]], [6, 0x10, 0x11, 0x12, 5])
        self.assertEqual(found[5:], [(1, [3 << 24]), (2, [CYCLES['NTSC'], 0]), (0, c.fill(1, 0, 0, 16, 1)),
                                     (0, [0xE1000000]), (3, [3]), (2, [2 * CYCLES['NTSC'], 0])])
        self.assertEqual(left_out, 4)
        self.assertIn((1, [0x10000007]), exported(capture, all_words=True)[0])

    def test_about(self):
        found = exported(c.Capture(3), game='SLUS-00000', video='PAL')[0]
        self.assertEqual(found[0], (6, [2]))
        self.assertEqual(Taken(exported(c.Capture(), game='a\u00e9\n')[2]).translation.said[1], 'game: a\u00e9 ')
        self.assertEqual(found[-1], (2, [CYCLES['PAL'], 0]))
        self.assertEqual(exported(c.Capture())[0][-2:], [(5, []), (2, [CYCLES['NTSC'], 0])])

    def test_trace_begin(self):
        """The state is before it, and no VSync is."""
        capture = c.Capture().gp1(0x3F000001).gp0(1 << 24, 1 << 24, 2 << 24, 3).gp1(0x3F000002)
        for begin, before in ((0, []), (1, []), (2, [(0, [1 << 24])]), (3, [(0, [1 << 24])] * 2),
                              (4, [(0, [1 << 24])] * 2 + [(0, [2 << 24])])):
            found = exported(capture, begin=begin)[0]
            at = found.index((5, []))
            self.assertEqual(found[4:at], before)
            self.assertEqual([kind for kind, _ in found].count(2), 1 + (begin == 0))
        self.assertEqual(exported(capture, begin=99)[0][-2][0], 5)

    def test_flips(self):
        capture = c.Capture().gp1(0x05000000, 0x3F000001, 0x05000400)
        self.assertEqual([kind for kind, _ in exported(capture, flips=True)[0][5:]], [1, 2, 1, 2])


def shown(path):
    """The words and reads of a flat capture that a dump has, marks left out."""
    found = {GP0: [], GP1: [], READ: 0}
    with open(path, 'rb') as file:
        for kind, count, words in Stream(file, path):
            if kind == GP0:
                found[GP0].append(words)
            elif kind == GP1 and words[0] >> 24 & 0x3F < 0x10 and words[0] >> 24 & 0x3F != 4:
                found[GP1].append(words[0])
            elif kind in (READ, SKIP):
                found[READ] += count
    return array('I', b''.join(words.tobytes() for words in found[GP0])), found[GP1], found[READ]


class RoundTrip(support.InFolder):
    def plain(self, path):
        """The path of a recording that is not packed, or None if it has to be flattened and there is no player."""
        with opened(path) as file, open(self.path('plain.capture'), 'wb') as copy:
            copy.write(file.read())
        if 'list-loop' in path or not support.PLAYER and not is_flat(copy.name):
            return None
        return copy.name

    def trip(self, path, dump='a.psxgpu.gz'):
        """The path of what a capture's dump becomes."""
        back = self.path('back.capture')
        for words in (['to-dump', path, self.path(dump)], ['from-dump', self.path(dump), '-o', back]):
            done = support.run_tool(*words)
            self.assertEqual((done.returncode, done.stdout), (0, ''), done.stderr)
        return back

    def same_words(self, paths):
        for path in paths:
            plain = self.plain(path)
            if plain:
                with self.subTest(os.path.basename(path)), flattened(plain, support.PLAYER) as flat:
                    self.assertEqual(shown(flat), shown(self.trip(path)))

    def test_examples(self):
        self.same_words(ALL_EXAMPLES)

    @unittest.skipUnless(RECORDINGS, 'no recordings beside the checkout')
    def test_recordings(self):
        self.same_words(RECORDINGS)

    @support.needs_player
    def test_video_memory(self):
        for name in ('two-fills', 'flips', 'smear', 'tall', 'turns', 'read-back'):
            sums = []
            for path in (support.example(name), self.trip(support.example(name), 'a.psxgpu.xz')):
                with open(path, 'rb') as file:
                    sums.append(subprocess.run([support.PLAYER, 'vram'], stdin=file, capture_output=True).stdout)
            self.assertTrue(sums[0])
            self.assertTrue(sums[0] == sums[1], name)

    def test_left_out(self):
        path = self.write('a.capture', c.Capture().stat(3).bytes())
        done = support.run_tool('to-dump', path, self.path('a.psxgpu'))
        self.assertEqual((done.returncode, done.stderr), (
            0, '%s: 3 events are left out: reads of the status and control words\n' % path))
        self.assertEqual(self.read('a.psxgpu')[:14], HEAD)

    def test_trouble(self):
        """A dump that was there stays if the new one is not whole."""
        self.write('a.psxgpu', b'kept')
        snapshot = b'PSXGPUS1' + struct.pack('<16I', 512, *[0] * 15)
        for data, why in ((c.Capture().gp0(1, 2, 3).bytes()[:-8], 'cut at byte'), (b'', 'empty'),
                          (snapshot, 'a snapshot'), (b'x' * 20, 'it begins with')):
            done = support.run_tool('to-dump', self.write('a.capture', data), self.path('a.psxgpu'))
            self.assertEqual((done.returncode, done.stderr.count('\n')), (2, 1), done.stderr)
            self.assertIn(why, done.stderr)
        self.assertEqual(self.read('a.psxgpu'), b'kept')
