"""The tool diff: packets of two captures as a unified diff."""
import gzip
import random
import re
import shutil
import subprocess
import unittest

from tests import support
from psxgpu import capture as c
from psxgpu.packets.unified import Side, Text, unified


def applied(lines, before):
    """The lines that a diff makes of those before; each part fits where it says that it does."""
    out, at, left = [], 0, 0
    for line in lines[2:]:
        head = re.match(r'@@ -(\d+),(\d+) \+(\d+),(\d+) @@ ', line)
        if head:
            first, count = int(head[1]), int(head[2])
            assert not left
            out += before[at:first - (count > 0)]
            at, left = first - (count > 0), count
            assert len(out) == int(head[3]) - (int(head[4]) > 0)
            continue
        if line[0] in ' -':
            assert before[at] == line[1:]
            at, left = at + 1, left - 1
        if line[0] in ' +':
            out.append(line[1:])
    assert not left
    return out + before[at:]


def random_sides(r, most):
    """Two sides that are mostly equal. The lines are few, so that they fit at many places."""
    base = [tuple(r.choice('abcd') for _ in range(r.randrange(1, 4))) for _ in range(r.randrange(most))]
    for name in ('ours', 'theirs'):
        some = [lines if r.random() > .1 else r.choice((('x',), (*lines, 'y'), lines)) for lines in base]
        kept = [lines for lines in some if r.random() > .05]
        yield Side(name, [Text(at, lines) for at, lines in enumerate(kept)])


class Unified(support.InFolder):
    def test_it_makes_one_of_the_other(self):
        r = random.Random(1)
        for _ in range(300):
            ours, theirs = random_sides(r, 30)
            found = list(unified(ours, theirs))
            self.assertEqual(applied(found, ours.lines) if found else ours.lines, theirs.lines)

    @unittest.skipUnless(shutil.which('patch'), 'patch is not installed')
    def test_patch_takes_it(self):
        """In both directions, without a hunk that is moved."""
        r = random.Random(2)
        for _ in range(60):
            sides = list(random_sides(r, 60))
            found = list(unified(*sides))
            self.write('diff', '\n'.join(found) + '\n')
            for before, after, words in ((*sides, []), (*sides[::-1], ['-R'])) if found else ():
                self.write('before', ''.join(line + '\n' for line in before.lines))
                done = subprocess.run(['patch', '--fuzz=0', '-o', 'after', *words, 'before', 'diff'], cwd=self.folder,
                                      capture_output=True, text=True)
                self.assertEqual((done.returncode, done.stderr), (0, ''), done.stdout)
                self.assertNotIn('offset', done.stdout)
                self.assertEqual(self.read('after').decode().splitlines(), after.lines)

    def test_context(self):
        """Two entries are shown whole, and as many lines before as after; at an end of the file, what is there."""
        entries = [Text(k, ('%d' % k, '    field')) for k in range(9)]
        found = list(unified(Side('a', entries), Side('b', [*entries[:4], Text(4, ('4', '    other')), *entries[5:]])))
        around = [' ' + line for entry in entries for line in entry.lines][4:]
        self.assertEqual(found, ['--- a', '+++ b', '@@ -5,11 +5,11 @@ event 4, event 4', *around[:5], '-    field',
                                 '+    other', *around[6:11]])
        found = list(unified(Side('a', entries), Side('b', entries[1:])))
        self.assertEqual(found[2:], ['@@ -1,6 +1,4 @@ event 0, event 1', '-0', '-    field', ' 1', '     field', ' 2',
                                     '     field'])

    def test_names(self):
        side, other = [Text(1, ('x',))], [Text(1, ('y',))]
        found = list(unified(Side('a b', side), Side('c"\n', other)))
        self.assertEqual(found[:2], ['--- a b\t', '+++ "c\\042\\012"'])

    def test_nothing(self):
        side = Side('a', [Text(1, ('x',))])
        self.assertEqual(list(unified(side, side)), [])
        self.assertEqual(list(unified(Side('a', []), Side('b', []))), [])
        self.assertEqual(list(unified(Side('b', []), side)),
                         ['--- b', '+++ a', '@@ -0,0 +1,1 @@ the end, event 1', '+x'])


@support.needs_player
class Diff(support.InFolder):
    def diff(self, *words):
        done = support.run_tool('diff', *words, cwd=self.folder)
        self.assertEqual(done.stderr.count('\n'), done.returncode == 2, done)
        return done.returncode, done.stderr if done.returncode == 2 else done.stdout.splitlines()

    def setUp(self):
        super().setUp()
        self.capture = c.Capture().gp0(c.drawing_area(0, 0, 99, 99), c.fill(255, 0, 0, 16, 16))
        self.write('a', self.capture.bytes())

    def test_a_field(self):
        self.write('b', c.Capture().stat().gp0(c.drawing_area(0, 0, 99, 99), c.fill(255, 16, 0, 16, 16)).bytes())
        self.assertEqual(self.diff('a', 'b'), (1, [
            '--- a', '+++ b', '@@ -1,7 +1,8 @@ event 1, event 1', '+stat',
            ' environment e3000000 -', '     drawing area: top left (0, 0)',
            ' environment e4018c63 -', '     drawing area: bottom right (99, 99)',
            '-fill 020000ff 0 0 15 15', '-    corner (0, 0), size 16 by 16',
            '+fill 020000ff 16 0 31 15', '+    corner (16, 0), size 16 by 16', '     colour 255 0 0']))

    def test_equal_but_for_other_names(self):
        self.write('b', c.Capture(2).stat().gp0(c.drawing_area(0, 0, 99, 99)).gp0(c.fill(255, 0, 0, 16, 16)).bytes())
        self.assertEqual(self.diff('a', 'a'), (0, []))
        self.assertEqual(self.diff('a', 'b', '--name', 'fill', '--name', 'environment'), (0, []))
        self.assertEqual(self.diff('a', 'b')[0], 1)
        self.write('b.gz', gzip.compress(self.capture.bytes()))
        self.assertEqual(self.diff('a', 'b.gz'), (0, []))

    def test_dma_is_compared(self):
        status, lines = self.diff(support.example('textured-frame'), support.example('textured-frame'))
        self.assertEqual((status, lines), (0, []))
        status, lines = self.diff(support.example('turns'), 'a')
        self.assertEqual(status, 1)
        self.assertTrue([line for line in lines if line.startswith('-begin 2 madr ')])

    def test_refusals(self):
        self.write('cut', self.capture.bytes()[:-5])
        self.write('text', b'text')
        for words, text in ((['a', 'none'], 'none: No such file'), (['text', 'a'], 'text: not a capture'),
                            (['a', 'cut'], 'cut: psxgpu: truncated at event 5'), (['-', '-'], 'one capture'),
                            (['a', support.example('list-loop')], 'list-loop at event 8'),
                            (['a', 'a', '--name', 'sprite'], 'invalid choice')):
            status, said = self.diff(*words)
            self.assertEqual(status, 2)
            self.assertIn(text, said)
