"""Tests of build_progress: python3 tests/proving/test_progress.py. A small `rt` stands in for the kit's."""
import os
import shutil
import signal
import subprocess
import sys
import tempfile
import time
import unittest
from typing import List, Optional

ROOT = os.path.dirname(os.path.dirname(os.path.dirname(os.path.abspath(__file__))))

# Builds the crate of its folder, over libraries that have to be there. The crate that BAD names is not proved, the one
# that SLOW names takes a minute, and the one that GREEDY names is killed where it has more than one processor. Each
# call leaves a line in the file `calls`, at its beginning and at its end.
RT = r'''#!/bin/sh
crate=$(basename "$PWD")
calls=$(dirname "$0")/calls
[ "$1 $2" = 'lib --jobs' ] || exit 9
echo $$ > "$(dirname "$0")/pid"
echo "begin $crate $3" >> "$calls"
for below in $(sed -n "s/^$crate: *//p" ../../crates.txt); do
    [ -f "../$below/out/rlib/stamp" ] && [ -f "../$below/src/lib.rt" ] || { echo "error: $below is not there"; exit 1; }
done
[ "$crate" = "$BAD" ] && { printf 'fn it: proved\nerror: not proved\n'; exit 1; }
[ "$crate" = "$GREEDY" ] && [ "$3" -gt 1 ] && kill -KILL $$
[ "$crate" = "$SLOW" ] && { mkdir -p out/incremental; echo half > out/incremental/work; sleep 60; }
sleep 0.3
mkdir -p out/rlib out/incremental
echo made > out/rlib/stamp
echo more >> out/incremental/work
printf 'fn it: proved\nlogic=proved functions=1\n'
echo "end $crate" >> "$calls"
'''
CRATES = '''# NAME: libraries
low:
left: low
right: low
app: left right
other: low
tests: low left right other
'''


class Progress(unittest.TestCase):
    """The program is app: other and tests are not below it."""

    def setUp(self) -> None:
        self.place = tempfile.TemporaryDirectory()
        self.addCleanup(self.place.cleanup)
        for crate in 'low', 'left', 'right', 'app', 'other', 'tests':
            os.makedirs(self.path('crates', crate, 'src'))
            self.write('fn it() {}\n', 'crates', crate, 'src', 'lib.rt')
        os.mkdir(self.path('proving'))
        for name in '__init__.py', 'progress.py', 'plan.py', 'copies.py', 'kept.py':
            shutil.copy(os.path.join(ROOT, 'proving', name), self.path('proving'))
        self.write(CRATES, 'crates.txt')
        self.write(RT, 'rt')
        os.chmod(self.path('rt'), 0o755)

    def path(self, *names: str) -> str:
        return os.path.join(self.place.name, *names)

    def write(self, text: str, *names: str) -> None:
        with open(self.path(*names), 'w', encoding='utf-8') as file:
            file.write(text)

    def read(self, *names: str) -> str:
        with open(self.path(*names), encoding='utf-8') as file:
            return file.read()

    def calls(self) -> List[str]:
        """Returns what the stand-in noted since the last call."""
        said = self.read('calls').splitlines() if os.path.exists(self.path('calls')) else []
        self.write('', 'calls')
        return said

    def begin(self, *words: str, **settings: str) -> 'subprocess.Popen[str]':
        env = dict(os.environ, PATH=self.place.name + os.pathsep + os.environ['PATH'], **settings)
        return subprocess.Popen([sys.executable, '-m', 'proving.progress', '--top', 'app', *words], cwd=self.place.name,
                                env=env, text=True, stdout=subprocess.PIPE, stderr=subprocess.PIPE)

    def run_it(self, *words: str, status: int = 0, error: Optional[str] = '', **settings: str) -> List[str]:
        """Runs it, checks its status and its standard error, and returns the lines of its output."""
        run = self.begin(*words, **settings)
        out, err = run.communicate()
        self.assertEqual((run.returncode, err if error is not None else None), (status, error))
        self.assertFalse(os.path.exists(self.path('out', 'first')))
        return out.splitlines()

    def test_what_the_program_needs(self) -> None:
        lines = self.run_it()
        self.assertRegex(lines[0], r'^Proving 3 of the 3 crates below app, up to \d+ at a time: some \d+ minutes\.')
        self.assertRegex(lines[2], r'^low: 1 of 3, 2 left, \d+:\d\d$')
        self.assertEqual(sorted(line.split(':')[0] for line in lines[3:5]), ['left', 'right'])
        self.assertRegex(lines[4], r': 3 of 3, 0 left, \d+:\d\d$')
        self.assertEqual(lines[5:], ['app itself is proved and compiled now.'])
        self.assertEqual({line.split()[1] for line in self.calls()}, {'low', 'left', 'right'})
        self.assertEqual(self.run_it(), [])
        self.assertEqual(self.calls(), [])

    @unittest.skipIf(len(os.sched_getaffinity(0)) < 2, 'one processor')
    def test_side_by_side(self) -> None:
        self.run_it()
        calls = [line.split()[0] for line in self.calls()]
        self.assertEqual(calls, ['begin', 'end', 'begin', 'begin', 'end', 'end'])

    def test_one_at_a_time(self) -> None:
        self.assertIn('up to 1 at a time', self.run_it('1')[0])
        calls = self.calls()
        self.assertEqual([line.split()[0] for line in calls], ['begin', 'end'] * 3)
        self.assertEqual({line.split()[2] for line in calls if line.startswith('begin')}, {'1'})

    def test_goes_on(self) -> None:
        self.run_it('1', status=1, error='left is not proved:\nerror: not proved\n', BAD='left')
        self.assertIn('begin low 1', self.calls())
        self.assertRegex(self.run_it('1')[0], '^Proving 2 of the 3 crates|^Proving 1 of the 3 crates')
        self.assertNotIn('begin low 1', self.calls())

    def test_an_interrupt(self) -> None:
        # A process that was started in the background may ignore SIGINT, and so would its children.
        before = signal.signal(signal.SIGINT, signal.default_int_handler)
        self.addCleanup(signal.signal, signal.SIGINT, before)
        for which in signal.SIGINT, signal.SIGTERM:
            with self.subTest(which=which):
                run = self.begin('1', SLOW='left')
                while 'begin left 1' not in (self.read('calls') if os.path.exists(self.path('calls')) else ''):
                    time.sleep(0.05)
                time.sleep(0.3)
                run.send_signal(which)
                began = time.monotonic()
                _, err = run.communicate()
                self.assertLess(time.monotonic() - began, 20)
                self.assertEqual(run.returncode, 1)
                self.assertRegex(err, r'^interrupted after \d of \d crates; run it again to go on\n$')
                self.assertFalse(os.path.exists(self.path('out', 'first')))
                self.assertEqual(self.read('crates', 'left', 'out', 'incremental', 'work'), 'half\n')
                self.calls()
        self.assertEqual(self.run_it()[-1], 'app itself is proved and compiled now.')
        self.assertEqual(self.read('crates', 'left', 'out', 'incremental', 'work'), 'half\nmore\n')

    def test_a_run_that_was_killed(self) -> None:
        run = self.begin('1', SLOW='left')
        while 'begin left 1' not in (self.read('calls') if os.path.exists(self.path('calls')) else ''):
            time.sleep(0.05)
        time.sleep(0.3)
        run.kill()
        run.communicate()
        self.assertTrue(os.path.isdir(self.path('out', 'first', 'left')))
        os.killpg(int(self.read('pid')), signal.SIGKILL)
        self.assertEqual(self.run_it()[-1], 'app itself is proved and compiled now.')
        self.assertEqual(self.read('crates', 'left', 'out', 'incremental', 'work'), 'half\nmore\n')

    def test_changed(self) -> None:
        self.run_it()
        self.calls()
        os.utime(self.path('crates', 'left', 'src', 'lib.rt'), (4e9, 4e9))
        self.assertRegex(self.run_it()[0], '^Proving 1 of the 3 crates')
        self.assertEqual(self.read('crates', 'left', 'out', 'incremental', 'work'), 'more\nmore\n')
        os.utime(self.path('crates', 'low', 'src', 'lib.rt'), (4e9, 4e9))
        self.assertRegex(self.run_it()[0], '^Proving 3 of the 3 crates')

    def test_another_kit(self) -> None:
        self.run_it()
        time.sleep(0.1)
        os.chmod(self.path('rt'), 0o755)
        self.assertRegex(self.run_it()[0], '^Proving 3 of the 3 crates')

    def test_killed_for_memory(self) -> None:
        self.run_it(GREEDY='low')
        calls = [line for line in self.calls() if line.startswith('begin low')]
        self.assertEqual(calls[-1], 'begin low 1')

    def test_words(self) -> None:
        for words in (['0'], ['two'], ['--top', 'nobody']):
            with self.subTest(words=words):
                self.run_it(*words, status=2, error=None)
