"""Runs: packets that are taken together have the texts, the counts and the textures of single ones."""
import random
import re
import unittest
from array import array

from psxgpu import capture as c
from psxgpu.packets import runs
from psxgpu.packets.fields import fields
from psxgpu.packets.grammar import POLYGON, RECTANGLE, TABLE
from psxgpu.packets.run_texts import PolygonLines
from psxgpu.packets.split import Splitter
from tests import support

OPCODES = sorted(runs.ALIKE)


def packets_of(numbers, count):
    """Returns the words of runs of random packets, with settings between them: all bits of all words."""
    words = []
    for _ in range(count):
        first = numbers.choice(OPCODES)
        for _ in range(numbers.choice((1, 2, 5, 9))):
            opcode = numbers.choice(runs.ALIKE[first])
            words += [opcode << 24 | numbers.randrange(1 << 24),
                      *(numbers.randrange(1 << 32) for _ in range(TABLE[opcode][1] - 1))]
        words += [numbers.randrange(0xE1, 0xE7) << 24 | numbers.randrange(1 << 24)] * numbers.randrange(2)
    return array('I', words)


class Pieces(unittest.TestCase):
    def test_same_packets(self):
        """Runs have the packets of the splitter, at the same places, also if a packet began in an earlier record."""
        words = packets_of(random.Random('pieces'), 60)
        for at in (0, 1, 7, len(words) // 2):
            plain, splitter = Splitter(), Splitter()
            expected = [it for part in (words[:at], words[at:]) for it in plain.push(part)]
            found = []
            for part in (words[:at], words[at:]):
                for piece in runs.pieces(splitter, part):
                    if isinstance(piece, runs.Run):
                        self.assertGreaterEqual(piece.packets, runs.LEAST)
                        piece = [(piece.name, piece.packet(k), piece.end_of(k)) for k in range(piece.packets)]
                    found += piece if isinstance(piece, list) else [piece]
            self.assertEqual(found, expected)
            self.assertEqual(splitter.registers, plain.registers)

    def test_texts(self):
        """The fields of a run of polygons are those of each polygon."""
        splitter = Splitter()
        polygons, count = PolygonLines(splitter), 0
        for piece in runs.pieces(splitter, packets_of(random.Random('texts'), 200)):
            if not isinstance(piece, runs.Run) or piece.name != POLYGON:
                continue
            packets = [piece.packet(k) for k in range(piece.packets)]
            lines = ['%d polygon %08x -\n' % (k, packet[0]) for k, packet in enumerate(packets)]
            texts = polygons.texts(piece, lines)
            for packet, line, text in zip(packets, lines, texts):
                splitter.change(POLYGON, packet)
                self.assertEqual(text, line[:-1] + ' | ' + '; '.join(
                    fields(POLYGON, packet, splitter.registers, 512)) + '\n')
                count += 1
            lines[-1] = '1 polygon 00000000 -\n'
            self.assertIsNone(polygons.texts(piece, lines))
        self.assertGreater(count, 100)

    def test_rectangles(self):
        """Rectangles of one size code are a run; others end it."""
        splitter = Splitter()
        words = array('I', [0x60000000, 0, 0x10001] * 5 + [0x68000000, 0] * 5)
        found = [(piece.name, piece.packets) for piece in runs.pieces(splitter, words)]
        self.assertEqual(found, [(RECTANGLE, 5), (RECTANGLE, 5)])


@support.needs_player
class Tools(support.InFolder):
    def test_full_channels(self):
        """A cell that is covered more often than three channels count, in any number of jobs."""
        capture = c.Capture().gp0(c.drawing_area(0, 0, 1023, 511))
        for k in range(3):
            capture.gp0([c.rectangle(1, 16, 8, 4, 4) for _ in range(150 + k)]).gp1(0x3F000000)
        path = self.write('capture', capture.bytes())
        for jobs in ('1', '3'):
            done = support.run_tool('heat', path, '--jobs', jobs)
            self.assertEqual([line.split()[1:] for line in done.stdout.splitlines()[1:4]],
                             [[str(n), str(16 * n), '16', '%d.00' % n, str(n)] for n in (150, 151, 152)])

    def test_textures_of_runs(self):
        """A run that draws into its own texture is taken packet by packet."""
        quad = [0x2D808080, 0, 0, 8, 0x01000008, 8 << 16, 8 << 8, 8 << 16 | 8, 0x0808]
        for at, questions in ((0, 8), (512, 1)):
            words = [word + at * (k in (1, 3, 5, 7)) for k, word in enumerate(quad)] * 8
            path = self.write('capture', c.Capture().gp0(c.drawing_area(0, 0, 1023, 511), c.fill(1, 0, 0, 16, 16),
                                                         words).bytes())
            said = support.run_tool('textures', path, '-o', self.path('textures%d' % at)).stdout
            self.assertEqual(re.search(r'(\d+) questions? for', said)[1], str(questions), said)

    def test_jobs_of_check(self):
        for name in ('two-fills', 'turns', 'list-loop'):
            one, four = (support.run_tool('check', support.example(name), '--jobs', jobs) for jobs in '14')
            self.assertEqual((one.stdout, one.returncode), (four.stdout, four.returncode))


if __name__ == '__main__':
    unittest.main()
