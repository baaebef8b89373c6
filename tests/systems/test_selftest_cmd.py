"""The self-test for Windows, selftest.cmd, by wine, after `make windows`.

wine's own fc compares nothing, so one made here is beside the script."""
import os
import shutil
import subprocess
import tempfile
import unittest

ROOT = os.path.dirname(os.path.dirname(os.path.dirname(os.path.abspath(__file__))))
PLAYER = os.path.join(ROOT, 'systems', 'players', 'windows')
PROGRAM = os.path.join(ROOT, 'out', 'windows', 'psxgpu_tool.exe')
SECONDS = 300
FC = '''#include <stdio.h>
int main(int argc, char **argv) {
    FILE *one = argc == 4 ? fopen(argv[2], "rb") : NULL, *two = one ? fopen(argv[3], "rb") : NULL;
    int a = 0;
    while (two && a != EOF)
        if ((a = getc(one)) != getc(two)) return 1;
    return two ? 0 : 2;
}
'''


@unittest.skipUnless(os.path.exists(PROGRAM), 'not built: make windows')
class Script(unittest.TestCase):
    def setUp(self):
        folder = tempfile.TemporaryDirectory()
        self.addCleanup(folder.cleanup)
        self.folder = folder.name
        shutil.copytree(os.path.join(ROOT, 'psxgpu', 'selftest'), os.path.join(self.folder, 'selftest'))
        subprocess.run(['x86_64-w64-mingw32-gcc', '-std=c99', '-x', 'c', '-', '-o', self.path('selftest', 'fc.exe')],
                       input=FC, text=True, check=True)

    def path(self, *names):
        return os.path.join(self.folder, *names)

    def run_script(self, *words):
        """Returns the status, and both streams as one text."""
        done = subprocess.run([PLAYER, '/c', 'selftest\\selftest.cmd', *words], cwd=self.folder, timeout=SECONDS,
                              stdin=subprocess.DEVNULL, stdout=subprocess.PIPE, stderr=subprocess.STDOUT,
                              env=dict(os.environ, PROGRAM='cmd'))
        return done.returncode, done.stdout.decode(errors='replace')

    def test_program_beside_it(self):
        shutil.copy(PROGRAM, self.folder)
        status, text = self.run_script()
        self.assertEqual(status, 0, text)
        self.assertRegex(text, r'psxgpu selftest: 18 of 18 outputs are the same: psxgpu_tool \d+\.\d+\.\d+, Microsoft ')

    def test_other_bytes_by_a_named_program(self):
        shutil.copy(PROGRAM, self.path('mine.exe'))
        with open(self.path('selftest', 'tall.play'), 'a') as file:
            file.write('more')
        status, text = self.run_script('mine.exe')
        self.assertEqual(status, 1, text)
        self.assertIn('psxgpu selftest: 17 of 18 outputs are the same (different: tall.play): psxgpu_tool ', text)

    def test_no_program(self):
        status, text = self.run_script()
        self.assertEqual(status, 2, text)
        self.assertIn('psxgpu_tool.exe does not run: name the program, as in selftest.cmd psxgpu_tool.exe', text)
