"""Two players on random captures."""
import os
import unittest

from psxgpu.packets.generated import CLASSES
from psxgpu.players.agreement import Score, compare_class
from psxgpu.players.named import player_of
from tests import support
from tests.tools import wrong_players


class Agreement(support.InFolder):
    def agree(self, *words):
        done = support.run_tool('agree', *words)
        return done.returncode, done.stdout.splitlines()[2:], done.stderr

    def player(self, name, text):
        path = self.write(name, '#!/bin/sh\n' + text)
        os.chmod(path, 0o755)
        return path

    def test_dumps(self):
        """One player writes how long its capture is, one the double, and one nothing if it is long."""
        dump = "{ [ $n = 12 ] || printf '%06d' $((n * $k)); cat /dev/zero; } | head -c 1048576\n"
        zeros = self.player('zeros', 'k=1; n=$(wc -c); ' + dump)
        one = self.player('one', 'k=2; n=$(wc -c); ' + dump)
        nothing = self.player('nothing', 'k=1; n=$(wc -c); [ $n -gt 4000 ] || ' + dump)
        same = self.player('same', 'cat > /dev/null; head -c 1048576 /dev/zero\n')
        self.assertEqual(self.agree(zeros, same, '1', 'fills')[2], 'psxgpu agree: %s: the other player gives the same '
                         'dump whatever it reads\n' % same)
        self.assertEqual(self.agree(zeros, zeros, '2', 'fills'), (0, ['| fills | 2 | 2 |  |'], ''))
        status, lines, _ = self.agree(zeros, one, '2', 'fills')
        self.assertEqual((status, lines[0]), (1, '| fills | 2 | 0 | 100.00 % |'))
        self.assertEqual(self.agree(zeros, nothing, '1', 'fills'), (
            2, ['| fills | 1 | 0 |  (1 without a dump) |'],
            'psxgpu agree: a player wrote no dump for 1 of 1 captures\n'))

    def test_trouble(self):
        for words, reason in ((['none', 'none', '1', 'fills'], 'none: No such file or directory'),
                              (['a', 'b', '1', 'draws'], "there is no class 'draws': the classes are fills; loads; "),
                              ([], 'name two players')):
            status, _, said = self.agree(*words)
            self.assertEqual((status, said.count('\n')), (2, 1))
            self.assertTrue(said.startswith('psxgpu agree: ' + reason), said)

    def test_classes(self):
        done = support.run_tool('agree', '--classes')
        self.assertEqual((done.returncode, done.stdout.splitlines()), (0, list(CLASSES)))


@support.needs_player
class Ground(unittest.TestCase):
    """Random cells have no period: a player that takes other texels differs."""

    def equal(self, name, fault):
        score = Score(name, 3)
        compare_class(score, [player_of(support.PLAYER), wrong_players.Wrong(fault)])
        self.assertFalse(score.lost)
        return score.equal

    def test_pages(self):
        for name in ('rectangles, textured', 'quads, textured one to one', 'triangles, textured, scaled'):
            self.assertEqual(self.equal(name, wrong_players.column_8), 0, name)

    def test_windows(self):
        self.assertEqual(self.equal('texture windows', wrong_players.window_without_bit_4), 0)

    def test_lines(self):
        self.assertEqual(self.equal('lines of two colours', wrong_players.one_colour_lines), 0)
        self.assertEqual(self.equal('fills', wrong_players.one_colour_lines), 3)
