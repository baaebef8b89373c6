"""Tests of `psxgpu selftest`, of the script beside its captures, and of what they play."""
import glob
import os
import re
import shutil
import subprocess
import sys
import unittest

from tests import support

from packages import selftest_captures

FOLDER = os.path.join(support.TOP, 'psxgpu', 'selftest')
NAMES = [os.path.basename(path)[:-len('.capture')] for path in glob.glob(os.path.join(FOLDER, '*.capture'))]
SCRIPT = os.path.join(FOLDER, 'selftest.sh')
LINE = r'psxgpu selftest: 18 of 18 outputs are the same: psxgpu_tool \d+\.\d+\.\d+, \S+ \S+ \S+, .+\n'
WRONG = (r'psxgpu selftest: 16 of 18 outputs are the same \(different:.* flips.sums,? two-fills.sums\): '
         r'psxgpu_tool 9\.9\.9, .+\n')
# Writes what is stored, except for the sums of two captures. It finds the capture by its bytes.
FAKE = '''#!%s
import glob, os, sys
if sys.argv[1] == '--version':
    sys.exit(print('psxgpu_tool 9.9.9'))
data = sys.stdin.buffer.read()
for path in glob.glob(%r):
    with open(path, 'rb') as capture, open(path[:-7] + sys.argv[1], 'rb') as stored:
        if capture.read() == data:
            is_wrong = sys.argv[1] == 'sums' and os.path.basename(path) in ('flips.capture', 'two-fills.capture')
            sys.stdout.buffer.write(stored.read() + b'more' * is_wrong)
'''


class Stored(unittest.TestCase):
    def test_captures_are_what_the_maker_makes(self):
        made = selftest_captures.captures()
        self.assertEqual(sorted(made), sorted(NAMES))
        for name, data in made.items():
            with open(os.path.join(FOLDER, name + '.capture'), 'rb') as file:
                self.assertEqual(file.read(), data, name)

    def test_each_has_its_outputs_and_all_are_small(self):
        self.assertEqual(len(NAMES), 9)
        for name in NAMES:
            for command in ('sums', 'play'):
                self.assertTrue(os.path.getsize(os.path.join(FOLDER, '%s.%s' % (name, command))), name)
        self.assertLess(sum(map(os.path.getsize, glob.glob(os.path.join(FOLDER, '*')))), 200000)


class Selftest(support.InFolder):
    def fake(self):
        path = self.write('psxgpu_tool', FAKE % (sys.executable, os.path.join(FOLDER, '*.capture')))
        os.chmod(path, 0o755)
        return path

    def script(self, *words, **settings):
        return subprocess.run(['sh', SCRIPT, *words], capture_output=True, text=True, **settings)

    def assert_ended(self, done, status, pattern):
        self.assertEqual((done.returncode, done.stderr if status < 2 else done.stdout), (status, ''))
        self.assertRegex(done.stderr if status == 2 else done.stdout, r'\A%s\Z' % pattern)

    @support.needs_player
    def test_program(self):
        self.assert_ended(support.run_tool('selftest'), 0, LINE)
        self.assert_ended(self.script(support.PLAYER), 0, LINE)

    def test_library(self):
        done = support.run_tool('selftest', '--library')
        if done.returncode == 2:
            self.assertRegex(done.stderr, r'\Apsxgpu selftest: no libpsxgpu: .*\n\Z')
            self.skipTest('no library is built')
        self.assert_ended(done, 0, LINE.replace('psxgpu_tool ', r'libpsxgpu\.so\.1 of psxgpu '))

    @support.needs_player
    def test_program_beside_the_script_and_on_the_path(self):
        """The script finds the program of the folder above, also where names have spaces, and that of the path."""
        place = self.path('a folder')
        shutil.copytree(FOLDER, os.path.join(place, 'selftest'))
        script = os.path.join(place, 'selftest', 'selftest.sh')
        for folder in (place, self.path('bin')):
            os.makedirs(folder, exist_ok=True)
            os.symlink(support.PLAYER, os.path.join(folder, 'psxgpu_tool'))
            environment = dict(os.environ, PATH=folder + os.pathsep + os.environ['PATH'])
            done = subprocess.run(['sh', script], capture_output=True, text=True, env=environment)
            self.assert_ended(done, 0, LINE)
            os.remove(os.path.join(folder, 'psxgpu_tool'))

    def test_other_bytes(self):
        self.assert_ended(support.run_tool('selftest', '--player', self.fake()), 1, WRONG)
        self.assert_ended(self.script(self.fake()), 1, WRONG)

    def test_no_program(self):
        for name, content in (('missing', None), ('silent', '#!/bin/sh\nexit 3\n')):
            path = self.path(name)
            if content:
                os.chmod(self.write(name, content), 0o755)
            self.assert_ended(support.run_tool('selftest', '--player', path), 2,
                              r'psxgpu selftest: %s.*\n' % re.escape(path))
            done = self.script(path)
            self.assertEqual((done.returncode, done.stdout), (2, ''))
            self.assertIn('does not run: name the program', done.stderr)
