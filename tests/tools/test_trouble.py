"""No tool ends in a traceback: one line with the file and the reason, and status 2."""
import subprocess
import sys

from tests import support
from psxgpu import capture as c

# The words of each tool that reads a capture; FILE stands for it.
READERS = {'check': ['FILE'], 'packets': ['FILE'], 'first': ['1', 'FILE'], 'join': ['FILE'],
           'bisect': ['FILE', 'cat', 'cat']}
NEED_PLAYER = ('check', 'packets', 'bisect')
OTHERS = {'compare': ['FILE', 'FILE'], 'picture': ['FILE', 'out.png'], 'from-log': ['FILE']}
ALL = dict(READERS, **OTHERS)


class ToolError(support.InFolder):
    def ends(self, tool, words, **settings):
        """Runs a tool, which has to end with one line and status 2."""
        if tool in NEED_PLAYER and not support.PLAYER:
            self.skipTest('psxgpu_tool is not built')
        done = support.run_tool(tool, *words, cwd=self.folder, **settings)
        self.assertEqual(done.returncode, 2, (tool, done))
        self.assertEqual(done.stderr.count('\n'), 1, (tool, done.stderr))
        self.assertTrue(done.stderr.startswith('psxgpu %s: ' % tool), done.stderr)
        return done.stderr

    def words(self, tool, path):
        return [path if word == 'FILE' else word for word in ALL[tool]]

    def test_missing_file_and_directory(self):
        for tool in ALL:
            with self.subTest(tool):
                self.assertIn('none: No such file', self.ends(tool, self.words(tool, 'none')))
                self.assertIn('Is a directory', self.ends(tool, self.words(tool, '.')))

    def test_foreign_and_empty(self):
        for tool in READERS:
            with self.subTest(tool):
                path = self.write('foreign', b'PK\x03\x04' + bytes(100))
                self.assertIn('not a capture: zip', self.ends(tool, self.words(tool, path)))
                path = self.write('damaged', b'\x1f\x8b\x08' + bytes(100))
                self.assertIn('damaged: damaged: ', self.ends(tool, self.words(tool, path)))
                self.assertIn('empty', self.ends(tool, self.words(tool, self.write('nothing', b''))))

    def test_cut(self):
        """`check` reports on a capture that is cut, and `packets` lists it up to there."""
        path = self.write('cut', c.Capture().gp0(1, 2, 3).bytes()[:20])
        for tool, words in (('first', ['9', path]), ('join', [path]), ('bisect', [path, *['%s vram' % support.PLAYER] * 2])):
            with self.subTest(tool):
                self.assertIn('cut', self.ends(tool, words))

    def test_bad_pictures(self):
        for data in (b'P6\n1 1\n', b'\x89PNG\r\n\x1a\n', b'x'):
            path = self.write('bad', data)
            for tool in ('compare', 'picture'):
                self.assertIn(path + ': ', self.ends(tool, self.words(tool, path)))

    def test_full_disk(self):
        capture = self.write('good', c.Capture().stat().bytes())
        log, dump = self.write('log', 'stat\n'), self.write('dump', bytes(2048))
        runs = {'first': ['1', capture], 'join': [capture], 'from-log': [log], 'compare': [dump, dump],
                'check': [capture], 'packets': [capture], 'agree': ['--classes']}
        for tool, words in runs.items():
            with self.subTest(tool), open('/dev/full', 'w') as full:
                said = self.ends(tool, words, capture_output=False, stdout=full, stderr=subprocess.PIPE)
                self.assertIn('standard output: No space left', said)
        for tool, words in {'picture': [dump, '/dev/full'], 'first': ['1', capture, '/dev/full'],
                            'join': [capture, '-o', '/dev/full'], 'from-log': [log, '/dev/full'],
                            'compare': [dump, dump, '/dev/full']}.items():
            with self.subTest(tool):
                self.assertIn('/dev/full: No space left', self.ends(tool, words))

    def test_closed_pipe(self):
        """Quiet, with status 2."""
        capture = self.write('good', c.Capture().gp0([0] * 300000).bytes())
        for tool, words in (('first', ['300000', capture]), ('join', [capture]), ('packets', [capture])):
            with self.subTest(tool):
                if tool in NEED_PLAYER and not support.PLAYER:
                    self.skipTest('psxgpu_tool is not built')
                child = subprocess.Popen([sys.executable, '-m', 'psxgpu', tool, *words],
                                         stdout=subprocess.PIPE, stderr=subprocess.PIPE)
                child.stdout.read(8)
                child.stdout.close()
                self.assertEqual((child.stderr.read(), child.wait()), (b'', 2))
                child.stderr.close()

    def test_words(self):
        for tool in list(ALL) + ['agree']:
            with self.subTest(tool):
                done = support.run_tool(tool, '--help')
                self.assertEqual((done.returncode, done.stderr), (0, ''))
                self.assertIn('    psxgpu %s ' % tool, done.stdout)
                done = support.run_tool(tool, '--there-is-none')
                self.assertEqual((done.returncode, done.stdout), (2, ''))
                self.assertNotIn('Traceback', done.stderr)
