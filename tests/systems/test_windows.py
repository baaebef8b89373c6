"""What is Windows' own: names, streams, consoles. PLAYER=psxgpu_tool python3 -m unittest tests.systems.test_windows

Each run of systems/players/windows (psxgpu_tool.exe by wine) is compared with the same run of this machine's program."""
import os
import shutil
import subprocess
import unittest

from tests.systems import same_runs
from tests.systems.same_runs import CAPTURE, NATIVE, ROOT, run

WINDOWS = os.path.join(ROOT, 'systems', 'players', 'windows')
QEMU = 'qemu-x86_64-static'


@unittest.skipUnless(os.path.exists(os.path.join(ROOT, 'out', 'windows', 'psxgpu_tool.exe')), 'not built: make windows')
class Windows(same_runs.Same):
    player = WINDOWS

    def test_long_name(self) -> None:
        """A path of more than 260 characters."""
        folder = os.path.join(self.folder, *['a' * 60] * 5)
        os.makedirs(folder)
        path = os.path.relpath(shutil.copy(CAPTURE, folder), self.folder)
        self.assertEqual(self.same('sums', path, folder=self.folder)[0], 0)

    def test_no_wildcards(self) -> None:
        """A word with a star is that word, though a file fits it."""
        shutil.copy(CAPTURE, self.folder)
        status, out, error = run(WINDOWS, 'sums', '*.capture', folder=self.folder)
        self.assertEqual((status, out), (3, b''))
        self.assertTrue(error.startswith(b'psxgpu: *.capture: '))

    def test_nothing(self) -> None:
        """NUL is an empty file, and no terminal: what is binary may go there."""
        self.assertEqual(run(WINDOWS, 'play', 'NUL'), run(NATIVE, 'play', '/dev/null'))
        self.assertEqual(self.same('vram', data=self.capture, stdout=subprocess.DEVNULL), (0, None, b''))

    @unittest.skipUnless(shutil.which(QEMU), 'no ' + QEMU)
    def test_processor(self) -> None:
        """On a processor without x86-64-v2 there is a line and a status; the first one that has it plays."""
        for processor, status in (('Conroe', 127), ('Nehalem', 0)):
            with self.subTest(processor=processor):
                by = dict(os.environ, WINE_BY='%s -cpu %s' % (QEMU, processor))
                found = run(WINDOWS, 'sums', data=self.capture, env=by)
                self.assertEqual(found[0], status, found)
                self.assertEqual(b'lacks instructions of x86-64-v2' in found[2], status != 0)
