"""An installed wheel without the program: the tools play by the library inside it."""
import os
import shutil
import subprocess
import sys
import unittest
from typing import List, Tuple

from psxgpu.players import player
from tests import support

LIBRARY = os.path.join(support.TOP, 'out', 'libpsxgpu.so.1')
EXAMPLES = os.path.join(support.TOP, 'examples')


@unittest.skipUnless(os.path.exists(LIBRARY), 'the library is not built: make lib')
class Installed(support.InFolder):
    """The package with the library in it, and no program on the path."""

    def setUp(self) -> None:
        super().setUp()
        self.place = self.path('site')
        shutil.copytree(os.path.join(support.TOP, 'psxgpu'), os.path.join(self.place, 'psxgpu'),
                        ignore=shutil.ignore_patterns('__pycache__'))
        shutil.copy(LIBRARY, os.path.join(self.place, 'psxgpu'))

    def run_python(self, place: str, words: List[str], **more: str) -> Tuple[int, str, str]:
        """Runs Python with the package of a folder. Returns the status and what it says."""
        environment = {name: value for name, value in os.environ.items() if name not in ('PLAYER', 'PSXGPU_LIB')}
        done = subprocess.run([sys.executable, *words], cwd=self.folder, capture_output=True, text=True, check=False,
                              env=dict(environment, PYTHONPATH=place, **more))
        return done.returncode, done.stdout, done.stderr

    def same(self, *words: str) -> str:
        """Runs a tool with the program and by the library. Returns what both say."""
        program = player.find()
        ours = self.run_python(support.TOP, ['-m', 'psxgpu', *words], PLAYER=program)
        theirs = self.run_python(self.place, ['-m', 'psxgpu', *words], PATH='/usr/bin:/bin')
        self.assertEqual(theirs, ours)
        return ours[1]

    def test_tools(self) -> None:
        capture = os.path.join(EXAMPLES, 'flips.capture')
        self.assertIn('36 gp1 05040000', self.same('packets', capture))
        theirs = 'python3 ' + os.path.join(EXAMPLES, 'no_dither.py')
        self.assertEqual(self.same('bisect', capture, 'psxgpu_tool', theirs), 'no difference after 15 packets\n')

    def test_memory_and_dma(self) -> None:
        """What needs the words that DMA brings needs the program, and says so."""
        status, said, error = self.run_python(
            self.place, ['-m', 'psxgpu', 'packets', os.path.join(EXAMPLES, 'turns.capture')], PATH='/usr/bin:/bin')
        self.assertEqual((status, said), (2, ''))
        self.assertIn('`flat` needs the program psxgpu_tool', error)

    def test_selftest(self) -> None:
        """It tries the library, and says so."""
        status, said, error = self.run_python(self.place, ['-m', 'psxgpu', 'selftest'], PATH='/usr/bin:/bin')
        self.assertEqual((status, error), (0, ''))
        self.assertIn('18 of 18 outputs are the same: libpsxgpu.so.1 of psxgpu', said)

    def test_corpus(self) -> None:
        """Its results have the program's sum, so it needs the program."""
        status, said, error = self.run_python(
            self.place, ['-m', 'psxgpu', 'corpus', 'record', EXAMPLES, '--golden', self.path('golden')],
            PATH='/usr/bin:/bin')
        self.assertEqual((status, said), (2, ''))
        self.assertIn('psxgpu_tool is not on the path: install it', error)

    def test_check(self) -> None:
        """`slim` is the program's alone: its line is left out."""
        capture = os.path.join(EXAMPLES, 'turns.capture')
        program = player.find()
        ours = self.run_python(support.TOP, ['-m', 'psxgpu', 'check', capture], PLAYER=program)
        theirs = self.run_python(self.place, ['-m', 'psxgpu', 'check', capture], PATH='/usr/bin:/bin')
        lines = [line for line in ours[1].splitlines() if not line.startswith('slim ')]
        self.assertEqual((theirs[0], theirs[1].splitlines(), theirs[2]), (ours[0], lines, ours[2]))

    def test_cut(self) -> None:
        """`cut` has the bytes of the program at each event of a capture with memory and DMA."""
        script = os.path.join(self.place, 'psxgpu', 'players', 'by_library.py')
        for name, events in (('turns', (1, 5, 12)), ('read-back', (1, 7)), ('tall', (2, 400)), ('list-loop', (1, 2))):
            with open(os.path.join(EXAMPLES, name + '.capture'), 'rb') as file:
                data = file.read()
            for event in events:
                words = ['cut', str(event)]
                ours = subprocess.run([player.find(), *words], input=data,
                                      capture_output=True, check=True)
                theirs = subprocess.run([sys.executable, script, *words], input=data, capture_output=True, check=True)
                self.assertTrue(theirs.stdout == ours.stdout, (name, event))

    def test_what_it_cannot(self) -> None:
        script = os.path.join(self.place, 'psxgpu', 'players', 'by_library.py')
        for words in (['slim'], ['flat'], ['demo', '3'], ['pixel', '1'], ['cut', '-1'], []):
            status, said, error = self.run_python(self.place, [script, *words])
            self.assertEqual((status, said), (1, ''), words)
            self.assertIn('needs the program psxgpu_tool', error)


if __name__ == '__main__':
    unittest.main()
