"""Tests of what the plugin follows of the ports, so that a recording may begin in the midst: python3
tests/recorder/test_ports.py. They need gcc."""
import itertools
import random
import subprocess

from tests import support
from tests.recorder.emulated import Emulated
from tests.recorder.testing import PLAYER, Capture, event_list

# One of each kind of packet, and a word that ends polylines.
OPCODES = (0x02, 0x1F, 0x25, 0x2D, 0x34, 0x3E, 0x48, 0x5A, 0x65, 0x7C, 0x80, 0xA0, 0xC0, 0xE1, 0xE2, 0xE3, 0xE4, 0xE5,
           0xE6, 0x55)

setUpModule = support.needs('gcc')


class Ports(Emulated):
    def test_from_the_middle(self):
        """E1h with its flips, the page of a textured polygon, a load that has to end first."""
        script = ('gp0 e1003600; gp0 e2012345; gp0 e40003ff;'
                  'gp0 24808080; gp0 0; gp0 0; gp0 0; gp0 1230000; gp0 0; gp0 0;'
                  'gp1 8000001; gp1 5000400; gp0 1f000000;'
                  'gp0 a0000000; gp0 0; gp0 10003; frame 2; gp0 7; gp0 8; frame 1; gp0 1; frame 1')
        files = self.emulate(script, **{'from': 1})
        want = self.state([0x3723, 0x12345, 0, 0x3FF, 0, 0], [0x08000001, 0x05000400], [0x1F000000])
        want.gp0(1).gp1(0x3F000001)
        self.assertEqual(event_list(files['']), event_list(want.bytes()))

    def test_open_polyline(self):
        """A shaded polyline is open until its end word stands in the place of a colour."""
        script = ('gp0 58000000; gp0 0; gp0 0; gp0 1; frame 2; gp0 9; gp0 55555555; frame 1; gp0 55555555; frame 1;'
                  'gp0 2; frame 1')
        files = self.emulate(script, **{'from': 1})
        self.assertEqual(event_list(files['']), event_list(self.state([0] * 6, []).gp0(2).gp1(0x3F000001).bytes()))

    def test_open_store(self):
        script = ('gp0 1f000000; gp1 2000000; gp0 c0000000; gp0 0; gp0 10003; read; frame 2; read; frame 1;'
                  'gp0 2')
        files = self.emulate(script, **{'from': 1})
        self.assertEqual(event_list(files['']), event_list(self.state([0] * 6, []).gp0(2).bytes()))

    def test_followed_as_the_player_does(self):
        """Random words: what the plugin follows of the ports is what the player has, where the program was built."""
        if not PLAYER:
            self.skipTest('no PLAYER')
        numbers = random.Random(1)
        for _ in range(6):
            opcodes = [numbers.choice(OPCODES) for _ in range(400)]
            words = ['gp0 %x' % (opcode << 24 | numbers.choice((numbers.getrandbits(24), 0x10003, 0x555555)))
                     for opcode in opcodes]
            for k in range(0, 400, 40):
                words[k] = 'gp1 %x' % numbers.choice((0, 0x01000000, 0x02000000, 0x05000123, 0x08000047))
            script = ';'.join(words[:350]) + '; gp1 1000000; frame 1; frame 1'
            before = event_list(self.emulate(script)[''])[:351]
            state = event_list(self.emulate(script, **{'from': 1})[''])
            self.assertEqual(self.answers(before, False), self.answers(state, True))

    def answers(self, found, without_marks):
        """Returns the status and the values of E2h to E5h after events, as the player has them."""
        capture = Capture(2)
        for is_word, group in itertools.groupby(found, lambda event: isinstance(event, int)):
            if is_word:
                capture.gp0(list(group))
                continue
            for kind, count, words in group:
                if not (without_marks and words and words[0] >> 24 == 0x3F):
                    capture.record(kind, count, words)
        capture.stat()
        for k in range(2, 6):
            capture.gp1(0x10000000 | k).read()
        done = subprocess.run([PLAYER, 'play'], input=capture.bytes(), stdout=subprocess.PIPE, check=True)
        return done.stdout.decode().split()[-7:]
