"""Captures cut into steps, and packets of known classes in whose place stand loads."""
import io
import random
import sys
import unittest

from tests import support
from psxgpu import capture as c
from psxgpu.players import player
from psxgpu.players.bisection import build
from psxgpu.players.flat import flattened
from psxgpu.packets.known import CLASSES, NAMES, is_known
from psxgpu.packets.split import Splitter
from psxgpu.packets.generated import AREA, CLASSES as RANDOM, background
from psxgpu.players.steps import Cutter
from psxgpu.stream import GP0, Stream
from psxgpu.players.named import player_of
from psxgpu.players.two_players import Players


class Cut(unittest.TestCase):
    """The steps of a capture are its records, whatever lies between the words of a packet."""

    def steps(self, capture):
        stream = Stream(io.BytesIO(capture.bytes()), 'it')
        return list(Cutter(False).steps(stream))

    def test_words_stay(self):
        capture = c.Capture(2).gp0(c.fill(1, 0, 0, 16, 1), 0x20000000).stat()
        capture.gp0(0, 8, 0x80000, c.load(0, 0, 3, 1, [1, 2, 3])[:4]).read(2)
        capture.gp0(3, c.line([(0, 0), (1, 0), (2, 2)])).gp1(0).skip().gp0(0xA0000000)
        steps = self.steps(capture)
        self.assertEqual([(step.name, step.lines) for step in steps],
                         [('fill', 1), (None, 0), (None, 0), (None, 1), ('load', 1), ('pixels', 0), (None, 0),
                          ('pixels', 0), ('line', 3), (None, 0), (None, 0), (None, 0)])
        words = [word for step in steps if step.kind == GP0 for word in step.words]
        self.assertEqual(words, [word for kind, _, its in c.records(capture.bytes())[1] if kind == GP0 for word in its])

    def test_classes(self):
        corners, scaled = [(0, 0), (8, 0), (0, 8)], [(0, 0), (16, 0), (0, 16)]
        packets = {'gouraud': c.polygon(corners, [1, 2, 3]), 'scaled': c.polygon(corners, 0, texture=scaled),
                   'sloped': c.line([(0, 0), (5, 2)]), 'shaded-line': c.line([(0, 0), (5, 0)], [1, 2]),
                   'smear': c.copy(0, 0, 3, 1, 8, 8),
                   'even-flip': c.draw_mode(flip_x=True) + c.rectangle(0, 0, 0, 8, 8, texture=(2, 0)),
                   'far': c.drawing_offset(1000, 0) + c.rectangle(0, 1000, 0, 8, 8)}
        plain = [c.polygon(corners, [1, 1, 1]), c.polygon(corners, 0, texture=corners), c.line([(0, 0), (5, -5)]),
                 c.copy(3, 0, 0, 1, 8, 8), c.copy(0, 0, 8, 0, 8, 8), c.rectangle(0, 0, 0, 8, 8, texture=(3, 0))]
        self.assertEqual(set(packets), set(CLASSES))
        for name, words in packets.items():
            self.assertEqual(self.classes(words), {name})
        for words in plain:
            self.assertEqual(self.classes(words), set())

    def classes(self, words):
        splitter = Splitter()
        *_, (name, its, _) = splitter.push(words)
        return {one for one in CLASSES if is_known([one], name, its, splitter.registers)}


@support.needs_player
class Healed(support.InFolder):
    """Whatever is ignored: psxgpu_tool draws the same with the loads in the place of packets."""

    def check(self, path, classes):
        want = player.answer(support.PLAYER, ['vram'], path)
        with flattened(path, support.PLAYER) as flat:
            steps = build(flat, 'it', classes, support.PLAYER)
        self.assertTrue(player.answer(support.PLAYER, ['vram'], steps.file.name) == want, (path, classes))
        names = {name for k in range(1, steps.count + 1) for name, _, _ in self.packets(steps, k)}
        self.assertFalse(names & set(classes))

    def packets(self, steps, k):
        kind, _, words = steps.record(k)
        return Splitter().push(words) if kind == GP0 and steps.lines[k] > steps.lines[k - 1] else ()

    def test_examples(self):
        for name in ('textured-frame', 'smear', 'turns', 'tall', 'flips'):
            for classes in ([], list(NAMES), list(CLASSES)):
                self.check(support.example(name), classes)

    def test_random(self):
        for name in ('mask settings', 'texture windows', 'triangles, textured, scaled', 'drawing area', 'lines, sloped',
                     'copies that overlap to the right', 'offsets beyond eleven bits'):
            r = random.Random(name)
            capture = c.Capture().gp0(background(r), AREA, [RANDOM[name](r) for _ in range(6)])
            self.check(self.write('capture', capture.gp0(c.store(0, 0, 3, 3)).read(5).bytes()), list(NAMES))


@support.needs_player
class Ahead(support.InFolder):
    def test_snapshot(self):
        """Ours begins from a snapshot, in the midst of a load too, and draws what it draws from the beginning."""
        r = random.Random(1)
        capture = c.Capture().gp0(AREA)
        for _ in range(20):
            capture.gp0(RANDOM['fills'](r), RANDOM['mask settings'](r)).gp0(RANDOM['loads'](r)).stat()
        ours = support.PLAYER + ' vram'
        steps = build(self.write('capture', capture.bytes()), 'it', [], support.PLAYER)
        players = Players(player_of(ours), player_of(ours), 0, steps, support.PLAYER)
        for low in range(steps.count * 9 // 10, steps.count - 4):
            players.has_tried = False
            players.narrow(low, steps.count)
            self.assertIsNot(players.prefixes, steps.prefixes)
            for k in (low, low + 1, steps.count):
                self.assertFalse(players.differ(k))
                self.assertEqual(players.prefixes.first, low)

    def test_a_player_without_snapshots(self):
        theirs = self.write('theirs.py', """
import subprocess, sys
data = sys.stdin.buffer.read()
sys.exit(data[:8] != b'PSXGPUC1' or subprocess.run([%r, 'vram'], input=data).returncode)
""" % support.PLAYER)
        steps = build(self.write('capture', c.Capture().gp0([0] * 100).bytes()), 'it', [], support.PLAYER)
        command = sys.executable + ' ' + theirs
        players = Players(player_of(command), player_of(command), 0, steps, support.PLAYER)
        players.narrow(95, 100)
        self.assertIs(players.prefixes, steps.prefixes)
        self.assertFalse(players.differ(97))
