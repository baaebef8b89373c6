"""psxgpu.dll, by wine

Programs in C, built by MinGW over the import library, and over one that is made of psxgpu.def as a user of another
compiler makes his, play the examples in every mode as the program does."""
import glob
import os
import re
import subprocess
import tempfile
import unittest

ROOT = os.path.dirname(os.path.dirname(os.path.dirname(os.path.abspath(__file__))))

from systems import toolchain

NATIVE = os.environ.get('PLAYER', os.path.join(ROOT, 'crates', 'psxgpu_tool', 'out', 'psxgpu_tool'))
RUN = os.path.join(ROOT, 'systems', 'players', 'windows')
LIBRARY = os.path.join(ROOT, 'out', 'windows')
TOOLS = 'x86_64-w64-mingw32-'
STRICT = ['-std=c99', '-O2', '-Wall', '-Wextra', '-pedantic', '-I', os.path.join(ROOT, 'c')]
MODES = ['play', 'vram', 'shot', 'list', 'report', 'frames', 'frames marks', 'sums', 'sums marks', 'pixel 20 30']
EXPORT = re.compile(r'(?m)^\s*\[ *\d+\] .*?(psxgpu_\w+)$')


@unittest.skipUnless(os.path.exists(os.path.join(LIBRARY, 'psxgpu.dll')), 'not built: make windows')
class Library(unittest.TestCase):
    def setUp(self) -> None:
        place = tempfile.TemporaryDirectory()
        self.addCleanup(place.cleanup)
        self.folder = place.name

    def built(self, source: str, library: str) -> str:
        """Returns the path of a program that is built of a C file and linked with an import library."""
        made = os.path.join(self.folder, os.path.basename(source)[:-1] + 'exe')
        subprocess.run([TOOLS + 'gcc', *STRICT, source, library, '-o', made], check=True)
        return made

    def said(self, program: str, *words: str) -> str:
        """Returns what a program prints. It finds the library in its folder of the build."""
        how = dict(os.environ, PROGRAM=program, WINEPATH=LIBRARY)
        done = subprocess.run([RUN, *words], env=how, capture_output=True, text=True, check=True, cwd=self.folder)
        return done.stdout

    def test_exports(self) -> None:
        """It has the calls of the header and no other."""
        table = subprocess.run([TOOLS + 'objdump', '-p', os.path.join(LIBRARY, 'psxgpu.dll')], capture_output=True,
                               text=True, check=True).stdout
        self.assertEqual(sorted(EXPORT.findall(table)), toolchain.exports())

    def test_needs(self) -> None:
        """Program and library need what every Windows has."""
        for name in ('psxgpu_tool.exe', 'psxgpu.dll'):
            table = subprocess.run([TOOLS + 'objdump', '-p', os.path.join(LIBRARY, name)], capture_output=True, text=True,
                                   check=True).stdout
            self.assertEqual(set(re.findall(r'DLL Name: (\S+)', table)), {'KERNEL32.dll', 'msvcrt.dll'})

    def test_example(self) -> None:
        """c/example.c, over a library that is made of psxgpu.def."""
        library = os.path.join(self.folder, 'psxgpu.lib')
        subprocess.run([TOOLS + 'dlltool', '-d', os.path.join(LIBRARY, 'psxgpu.def'), '-l', library], check=True)
        self.assertIn('status', self.said(self.built(os.path.join(ROOT, 'c', 'example.c'), library)))

    def test_modes(self) -> None:
        """Every mode writes what the program writes, and is refused where the program refuses."""
        source = os.path.join(ROOT, '.ci', 'harness', 'play_modes.c')
        program = self.built(source, os.path.join(LIBRARY, 'libpsxgpu.dll.a'))
        for capture in sorted(glob.glob(os.path.join(ROOT, 'examples', '*.capture'))):
            codes = self.said(program, capture, self.folder).splitlines()
            for k, mode in enumerate(MODES):
                with self.subTest(capture=os.path.basename(capture), mode=mode):
                    with open(capture, 'rb') as file, open(os.path.join(self.folder, str(k)), 'rb') as made:
                        want = subprocess.run([NATIVE, *mode.split()], stdin=file, capture_output=True)
                        self.assertEqual(made.read(), want.stdout)
                    self.assertEqual(codes[k] != '%d 0' % k, want.returncode != 0)
