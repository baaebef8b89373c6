"""GPU dumps read as captures: a dump made by hand, cut at every byte, long packets, noise, and the command."""
import gzip
import io
import lzma
import random
import unittest

from tests import support
from tests.tools.dumps_support import HAND_MADE, PACKETS, Taken, packet
from psxgpu.dumps.format import HEAD
from psxgpu.dumps.reader import Dump
from psxgpu.stream import GP0, GP1, READ
from psxgpu.errors import ToolError

TYPES = (0, 0, 1, 2, 3, 4, 5, 6, 16, 17, 18, 19, 255)


class Reading(unittest.TestCase):
    def test_made_by_hand(self):
        taken = Taken(HAND_MADE)
        self.assertEqual((taken.fault, taken.version), (None, 1))
        self.assertEqual(taken.records, [
            (GP1, 1, [0x03000000]), (GP1, 1, [0x08000001]),
            (GP0, 7, [0xE1000000, 0xE3000000, 0xE407FFFF, 0xA0000000, 0, 0x00010002, 0x7FFF001F]),
            (GP0, 3, [0x600000FF, 0x00080008, 0x00020002]), (GP1, 1, [0x3F000001]),
            (GP0, 3, [0xC0000000, 0, 0x00010002]), (READ, 1, []), (GP0, 3, [0xC0000000, 0, 0x00010002]), (READ, 1, []),
            (GP1, 1, [0x3F000002])])
        self.assertEqual(''.join(taken.lines), '7fff001f\n--------\n')
        self.assertEqual(taken.translation.lines(), [
            'GPU: new, 1 MB', 'game: SLUS-000001', 'format: NTSC', 'events: 22', 'frames: 2',
            'trace begin: after event 9'])
        self.assertEqual(taken.translation.unknown_lines(), ['1 packets of the unknown type 77h are left out'])

    def test_cut_at_every_byte(self):
        """What is before the cut is kept. The cut is an error unless it is between packets."""
        ends, at = {len(HEAD): 0}, len(HEAD)
        for piece in PACKETS:
            at += len(piece)
            ends[at] = at
        whole, begin = Taken(HAND_MADE), len(HEAD)
        for end in range(len(HEAD), len(HAND_MADE) + 1):
            taken = Taken(HAND_MADE[:end])
            begin = end if end in ends else begin
            fault = None if end in ends else 'dump: byte %d: the dump ends inside a packet, which begins at byte %d' % (
                end, begin)
            self.assertEqual(taken.fault, fault)
            for kind in (GP0, GP1):
                words = taken.words(kind)
                self.assertEqual(words, whole.words(kind)[:len(words)])
            self.assertGreaterEqual(sum(map(len, (taken.words(GP0), taken.words(GP1)))),
                                    sum(map(len, (Taken(HAND_MADE[:begin]).words(GP0),
                                                  Taken(HAND_MADE[:begin]).words(GP1)))))

    def test_headers(self):
        for data, why in ((b'', 'empty'), (HEAD[:5], 'cut inside its header'), (b'PSXGPUDUMPv2\0\0', 'another version'),
                          (b'PSXGPUC1' + bytes(4), 'a capture already'), (b'\x89PNG\r\n\x1a\nxxxxxxx', 'PNG'),
                          (b'x' * 20, 'it begins with')):
            with self.assertRaisesRegex(ToolError, why):
                Dump(io.BytesIO(data), 'dump')

    def test_long_packets(self):
        """A packet that is longer than a block comes in parts; one of another type than those of ports is refused."""
        words = [0] * 200000 + [0xE1000007]
        for kind, record in ((0, GP0), (1, GP1)):
            taken = Taken(HEAD + packet(0, 1) + packet(kind, *words) + packet(2, 0, 0))
            self.assertEqual(taken.words(record)[-len(words) - (kind == 1):], words + [0x3F000001] * (kind == 1))
        taken = Taken(HEAD + packet(4, *words))
        self.assertEqual(sum(count for kind, count, _ in taken.records if kind == READ), 200001)
        self.assertEqual(''.join(taken.lines), '00000000\n' * 200000 + 'e1000007\n')
        taken = Taken(HEAD + packet(0x99, *words) + packet(0, 5))
        self.assertEqual((taken.fault, taken.words(GP0)), (None, [5]))
        taken = Taken(HEAD + packet(0, 5) + packet(2, *words) + packet(0, 6))
        self.assertEqual((taken.fault, taken.words(GP0)),
                         ('dump: byte 22: a packet VSync of 200001 words', [5]))

    def test_impossible_counts(self):
        taken = Taken(HEAD + packet(0, 5) + packet(3, 262145) + packet(0, 6))
        self.assertEqual((taken.fault, taken.words(GP0)),
                         ('dump: byte 22: a discard of 262145 words; a store has at most 262144', [5]))
        taken = Taken(HEAD + packet(0, 5) + b'\xff\xff\xff\x00' + bytes(8))
        self.assertEqual((taken.fault, taken.words(GP0)),
                         ('dump: byte 34: the dump ends inside a packet, which begins at byte 22', [5, 0, 0]))
        taken = Taken(HEAD + packet(3, 262144, 0))
        self.assertEqual((taken.fault, taken.records), (None, [(READ, 262144, [])]))

    def test_two_megabytes(self):
        self.assertEqual(Taken(HEAD + packet(6, 2) + packet(0, 5)).version, 3)
        self.assertEqual(Taken(HEAD + packet(0) + packet(2 << 3, 0) + packet(6, 2)).version, 3)
        taken = Taken(HEAD + packet(0, 5) + packet(6, 2))
        self.assertEqual((taken.version, taken.fault), (1, 'dump: byte 22: the GPU of 2 MB is named after 1 events'))
        self.assertEqual(Taken(HEAD + packet(6) + packet(6, 9)).translation.said, ['GPU: number -1', 'GPU: number 9'])

    def test_texts(self):
        """A text is one line of letters that can be printed."""
        taken = Taken(HEAD + packet(0x12, 0x0A1B41FF, 0x00FF0042))
        self.assertEqual(taken.translation.said, ['comment: \ufffdA  B'])

    def test_noise(self):
        """Bytes at random become a capture. What is wrong with them is one error with a byte."""
        rng = random.Random(1)
        for _ in range(2000):
            data = HEAD + b''.join(packet(rng.choice(TYPES), *(rng.getrandbits(rng.choice((2, 8, 24, 32)))
                                                               for _ in range(rng.randrange(5))))
                                   for _ in range(rng.randrange(12)))
            data = data[:rng.randrange(len(HEAD), len(data) + 5)]
            if rng.random() < 0.5:
                at = rng.randrange(len(HEAD), len(data) + 1)
                data = data[:at] + rng.randbytes(8) + data[at:]
            fault = Taken(data).fault
            self.assertRegex(fault or 'dump: byte 0: ', r'^dump: byte \d+: ')


class Command(support.InFolder):
    def run_from_dump(self, *words, **settings):
        return support.run_tool('from-dump', *words, cwd=self.folder, **settings)

    def test_quiet_and_packed(self):
        """A dump that is understood makes no word, however it is packed."""
        data = HAND_MADE.replace(packet(0x77, 1, 2, 3), b'')
        captures = set()
        for name, packed in (('a.psxgpu', data), ('b', gzip.compress(data)), ('c', lzma.compress(data))):
            done = self.run_from_dump(self.write(name, packed), '-o', self.path('capture'))
            self.assertEqual((done.returncode, done.stdout, done.stderr), (0, '', ''))
            captures.add(self.read('capture'))
        done = self.run_from_dump(stdin=open(self.path('b'), 'rb'), text=False)
        self.assertEqual((done.returncode, done.stderr), (0, b''))
        self.assertEqual(captures, {done.stdout})

    def test_about_and_reads(self):
        done = self.run_from_dump(self.write('a.psxgpu', HAND_MADE), '-o', self.path('capture'), '--about', '--reads',
                                  self.path('reads'))
        self.assertEqual(self.read('reads'), b'7fff001f\n--------\n')
        self.assertEqual(done.stderr.splitlines()[-1], '%s: 1 packets of the unknown type 77h are left out'
                         % self.path('a.psxgpu'))
        self.assertEqual(len(done.stderr.splitlines()), 7)

    def test_damaged(self):
        """One line, status 2, and a capture of what was before."""
        for name, data, why in (('cut', HAND_MADE[:80], 'byte 80: the dump ends inside a packet'),
                                ('cut.gz', gzip.compress(HAND_MADE)[:70], 'damaged: '),
                                ('bad', HEAD + packet(0, 1) + packet(3, 1 << 31), 'byte 22: a discard of 2147483648')):
            with self.subTest(name):
                done = self.run_from_dump(self.write(name, data), '-o', self.path(name + '.capture'))
                self.assertEqual((done.returncode, done.stderr.count('\n')), (2, 1), done.stderr)
                self.assertIn('psxgpu from-dump: %s: %s' % (self.path(name), why), done.stderr)
                capture = self.read(name + '.capture')
                self.assertEqual((capture[:8], capture[-4:]), (b'PSXGPUC1', bytes(4)))

    def test_no_dump(self):
        """The file that was there stays."""
        self.write('capture', b'kept')
        done = self.run_from_dump(support.example('smear'), '-o', self.path('capture'))
        self.assertEqual((done.returncode, done.stderr), (
            2, 'psxgpu from-dump: %s: not a GPU dump, a capture already\n' % support.example('smear')))
        self.assertEqual(self.read('capture'), b'kept')
        dump = self.write('a.psxgpu', HAND_MADE)
        for words, why in (([dump, '-o', dump], 'is also the input'), ([dump, '--reads', dump], 'is also the input'),
                           ([dump, '-o', 'x', '--reads', 'x'], 'named for two outputs')):
            done = self.run_from_dump(*words)
            self.assertEqual(done.returncode, 2)
            self.assertIn(why, done.stderr)
        self.assertEqual(self.read('a.psxgpu'), HAND_MADE)

    def test_noise_files(self):
        """The command's own function, on files of any bytes."""
        rng = random.Random(2)
        for k in range(20):
            begin = (b'', HEAD, HEAD, b'\x1f\x8b\x08', b'\xfd7zXZ\x00', b'\x28\xb5\x2f\xfd')[k % 6]
            done = self.run_from_dump(self.write('noise', begin + rng.randbytes(rng.randrange(300))), '-o', '/dev/null')
            self.assertEqual(done.returncode, 2, done.stderr)
            *others, last = done.stderr.splitlines()
            self.assertTrue(last.startswith('psxgpu from-dump: '), last)
            self.assertTrue(all('of the unknown type' in line for line in others), others)
