"""Tests of `make try` and of the first picture of `make run`. A small `rt` stands in for the kit's."""
import gzip
import os
import shutil
import subprocess
import tempfile
import unittest
from typing import Tuple

ROOT = os.path.dirname(os.path.dirname(os.path.dirname(os.path.abspath(__file__))))

# As `rt try -- WORDS` it says its words and writes its input, or what the file `answer` says. Every other use builds a
# program that writes its input.
RT = r'''#!/bin/sh
here=$(dirname "$0")
echo "$*" >> "$here/calls"
if [ "$1" != try ]; then
    [ "$1" = lib ] && exit 0
    mkdir -p out && printf '#!/bin/sh\ncat\n' > out/psxgpu_tool && chmod +x out/psxgpu_tool
    exit 0
fi
[ -f "$here/answer" ] && { cat "$here/answer" >&2; exit "$(cat "$here/status")"; }
cat
printf 'event 1: a line of the program\n\nchecked: ended status=0\nrun=ended status=0 runners=1 proved=no\n' >&2
'''
PICTURE = b'P6\n1 1\n255\nabc'
NOT_PROVED = 'This build is not proved. It stops at an index out of bounds or an overflow, and checks no contract.\n'


class Unproved(unittest.TestCase):
    """The example is a picture, which the stand-in of the program writes as it is."""

    def setUp(self) -> None:
        place = tempfile.TemporaryDirectory()
        self.addCleanup(place.cleanup)
        self.top, self.kit = os.path.join(place.name, 'top'), os.path.join(place.name, 'kit')
        for folder in 'crates/psxgpu_tool/src', 'examples':
            os.makedirs(os.path.join(self.top, folder))
        os.mkdir(self.kit)
        for name in 'proving', 'psxgpu', 'systems':
            shutil.copytree(os.path.join(ROOT, name), os.path.join(self.top, name))
        for name in 'Makefile', 'VERSION':
            shutil.copy(os.path.join(ROOT, name), os.path.join(self.top, name))
        self.write('psxgpu_tool:\n', 'crates.txt')
        self.write('', 'crates/psxgpu_tool/stdin')
        with open(os.path.join(self.top, 'examples', 'two-fills.capture'), 'wb') as file:
            file.write(PICTURE)
        self.write(RT, os.path.join(self.kit, 'rt'))
        os.chmod(os.path.join(self.kit, 'rt'), 0o755)

    def write(self, text: str, name: str) -> None:
        with open(os.path.join(self.top, name), 'w', encoding='utf-8') as file:
            file.write(text)

    def answer(self, said: str, status: int) -> None:
        """Lets `rt try` end with these words on standard error and this status."""
        self.write(said, os.path.join(self.kit, 'answer'))
        self.write(str(status), os.path.join(self.kit, 'status'))

    def make(self, *words: str) -> Tuple[int, bytes, str]:
        """Returns the status of make, what it wrote, and its standard error."""
        env = {name: value for name, value in os.environ.items() if not name.startswith('MAKE') and name != 'MFLAGS'}
        env['PATH'] = self.kit + os.pathsep + env['PATH']
        done = subprocess.run(['make', *words], cwd=self.top, env=env, stdin=subprocess.DEVNULL, stdout=subprocess.PIPE,
                              stderr=subprocess.PIPE, check=False)
        return done.returncode, done.stdout, done.stderr.decode()

    def test_try(self) -> None:
        self.assertEqual(self.make('try'), (0, PICTURE, NOT_PROVED + 'event 1: a line of the program\n'))
        self.write('other', 'a b.capture')
        self.assertEqual(self.make('try', 'CAPTURE=a b.capture', 'COMMAND=pixel 1 2')[:2], (0, b'other'))
        with open(os.path.join(self.kit, 'calls'), encoding='utf-8') as file:
            self.assertEqual([line.split(' -- ')[1] for line in file], ['shot\n', 'pixel 1 2\n'])

    def test_try_unpacks(self) -> None:
        packed = gzip.compress(b'packed')
        for name, capture in ('whole.gz', packed), ('cut.gz', packed[:-8]):
            with open(os.path.join(self.top, name), 'wb') as file:
                file.write(capture)
        self.assertEqual(self.make('try', 'CAPTURE=whole.gz')[:2], (0, b'packed'))
        status, out, said = self.make('try', 'CAPTURE=cut.gz')
        self.assertEqual((status, out), (2, b''))
        self.assertIn('the capture: damaged', said)

    def test_try_that_fails(self) -> None:
        for said, status, wanted in [
                ('event 1: wrong\nrun=ended status=3 runners=1 proved=no\n', 3, 'event 1: wrong\n'),
                ('checked: fault: index out of bounds\nrun=fault proved=no\n', 4, 'checked: fault: index out of bounds\n'),
                ("the end of the program's standard output:\n| P6\n| \x01\x0b\x1c\u2028\ninterpreter: no-answer: a call\n"
                 'checked: no-answer: the program wrote more than 1048576 bytes\nrun=no-answer proved=no\n', 6,
                 'checked: no-answer: the program wrote more than 1048576 bytes\nrun=no-answer proved=no\nmake: '),
                ('', 127, '')]:
            self.answer(said, status)
            done = self.make('try')
            self.assertEqual(done[:2], (2, b''))
            self.assertIn(NOT_PROVED + wanted, done[2])

    def test_run(self) -> None:
        """The first picture comes before the proof, and the proved program writes the same."""
        status, out, _ = self.make('run')
        lines = out.decode().splitlines()
        self.assertEqual(status, 0)
        self.assertEqual(lines[0], 'A first picture, before anything is proved: a minute or two.')
        self.assertRegex(lines[1], r'^two-fills\.png is there, after \d+ seconds\. This build is not proved\.')
        self.assertEqual(lines[-2:], [
            'two-fills.ppm, two-fills.png: a blue screen of 320 by 240 with a red square in it',
            'The proved program writes the bytes of the first picture.'])
        self.assertEqual(self.make('run'), (0, (lines[-2] + '\n').encode(), ''))

    def test_run_that_differs(self) -> None:
        os.mkdir(os.path.join(self.top, 'out'))
        self.write('another picture', 'out/first-picture.ppm')
        status, out, error = self.make('run')
        self.assertEqual(status, 2)
        self.assertIn('differ', out.decode() + error)

    def test_run_without_a_first_picture(self) -> None:
        self.answer('error: this kit does not try\n', 2)
        status, out, error = self.make('run')
        self.assertEqual((status, out.decode().splitlines()[-1]), (
            0, 'two-fills.ppm, two-fills.png: a blue screen of 320 by 240 with a red square in it'))
        self.assertIn('this kit does not try\nThere is no first picture. The proof begins.\n', error)


if __name__ == '__main__':
    unittest.main()
