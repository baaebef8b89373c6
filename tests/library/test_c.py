"""The library from C and C++, after `make lib`

example.c as C and as C++, with the static and with the shared library; events.c, which plays captures call by call,
with sanitizers on its side, against the program; failing.c, in which each allocation fails in turn; counts.c, which
saves machines near the most events that a snapshot counts; calls.c, which makes calls at the edge of what the header
allows; outputs.c, which compares the calls that play a whole capture.

For a library of another system, the environment names its folder below the top (LIBRARY, as out/aarch64), its compilers
(CC, CXX), and the emulator that runs what they make (RUN). There are no sanitizers then, and nothing is installed."""
import os
import re
import shlex
import shutil
import subprocess
import tempfile
import unittest

HERE = os.path.dirname(os.path.abspath(__file__))

from tests.interruptions import interruptible, send_interrupted
from tests import support
from tests.library import support as program

ROOT = os.path.dirname(os.path.dirname(HERE))
HEADER = os.path.join(ROOT, 'c')
OUT = os.path.join(ROOT, os.environ.get('LIBRARY', 'out'))
RUN = shlex.split(os.environ.get('RUN', ''))
CC, CXX = os.environ.get('CC', 'cc'), os.environ.get('CXX', 'c++')
STRICT = ['-O2', '-Wall', '-Wextra', '-Wpedantic', '-Werror', '-I', HEADER]
C, CPP = [CC, '-std=c99', *STRICT], [CXX, '-std=c++17', '-x', 'c++', *STRICT]
SANITIZED = [] if RUN else ['-g', '-fsanitize=address,undefined', '-fno-sanitize-recover=all']
ARCHIVE = os.path.join(OUT, 'libpsxgpu.a')
setUpModule = support.needs_built(ARCHIVE, 'lib')
SHARED = ['-L', OUT, '-lpsxgpu', '-Wl,-rpath,' + OUT]
FAILING = ['-Wl,--wrap=malloc', '-Wl,--wrap=realloc', '-Wl,--wrap=free']


class Library(unittest.TestCase):
    @classmethod
    def setUpClass(cls):
        cls.folder = tempfile.mkdtemp()
        cls.addClassCleanup(subprocess.run, ['rm', '-r', cls.folder])

    def build(self, name, words, source, links):
        path = os.path.join(self.folder, name)
        links = ['-x', 'none', *links] if '-x' in words else links
        subprocess.run([*words, os.path.join(HERE, source), *links, '-o', path], check=True)
        return path

    def run_in_folder(self, path, *words):
        done = subprocess.run([*RUN, path, *words], cwd=self.folder, capture_output=True, text=True)
        self.assertEqual((done.returncode, done.stderr), (0, ''), done.stdout)
        return done.stdout

    def test_example(self):
        """As C and as C++, with either library, it writes the same."""
        ways = [(C, [ARCHIVE]), (CPP, [ARCHIVE]), (C, SHARED), ([*C, *SANITIZED], [ARCHIVE])]
        ways = [(words, links) for words, links in ways if shutil.which(words[0])]
        example = os.path.join(HEADER, 'example.c')
        found = {self.run_in_folder(self.build('example', words, example, links)) for words, links in ways}
        self.assertEqual(len(found), 1)
        self.assertIn('status', found.pop())

    def test_each_allocation_fails(self):
        path = self.build('failing', [*C, *SANITIZED], 'failing.c', [*FAILING, ARCHIVE])
        told = self.run_in_folder(path)
        self.assertTrue(told.endswith('0 failures\n'), told)
        self.assertGreaterEqual(len(re.findall(': [1-9][0-9]* allocations', told)), 4, told)

    def test_counts(self):
        """A machine with more events than a snapshot counts is not saved, and what is saved loads again."""
        path = self.build('counts', [*C, *SANITIZED], 'counts.c', [ARCHIVE])
        self.assertEqual(self.run_in_folder(path), '')

    def test_calls(self):
        """Counts of 0 take null pointers, a handle may be moved, a look leaves it alone, and each code has its text."""
        for words in ([*C, *SANITIZED], CPP):
            path = self.build('calls', words, 'calls.c', [ARCHIVE])
            self.assertEqual(self.run_in_folder(path), '')

    def test_outputs(self):
        """In every mode a size, a handle and a sink have the output of psxgpu_play; a sink may refuse."""
        path = self.build('outputs', [*C, *SANITIZED], 'outputs.c', [ARCHIVE])
        self.assertEqual(self.run_in_folder(path, *program.EXAMPLES), '')

    def test_no_global_state(self):
        """No part of the library has a byte that can be written."""
        told = subprocess.run(['readelf', '-SW', ARCHIVE], capture_output=True, text=True, check=True).stdout
        rows = re.findall(r'(?m)^ +\[ *\d+\] (\.\S+) +(\w+) +\w+ \w+ (\w+) \w+ +(\w*) ', told)
        sections = {name for name, kind, size, flags in rows if 'W' in flags and int(size, 16) > 0}
        self.assertIn('.text', {name for name, *_ in rows})
        self.assertEqual({name for name in sections if not name.startswith('.data.rel.ro')}, set())

    def names(self, *words):
        """The names that nm prints, but for the version's own."""
        said = subprocess.run(['nm', '--defined-only', *words], capture_output=True, text=True, check=True).stdout
        return {line.split()[-1] for line in said.splitlines() if len(line.split()) == 3 and ' A ' not in line}

    def test_shared_library(self):
        """It has its name, and shows the calls of the header alone, each with its version."""
        shown = self.names('-D', os.path.join(OUT, 'libpsxgpu.so.1'))
        header = program.bytes_at(os.path.join(HEADER, 'psxgpu.h')).decode()
        calls = re.findall(r'(?m)^(?:void |uint32_t |size_t |const char \*)(psxgpu_\w+)\(', header)
        self.assertEqual(shown, {call + '@@PSXGPU_1' for call in calls})
        told = subprocess.run(['readelf', '-d', os.path.join(OUT, 'libpsxgpu.so.1')], capture_output=True, text=True)
        self.assertIn('[libpsxgpu.so.1]', told.stdout)

    def test_archive(self):
        """No name in it is one that another library of the same compiler has."""
        self.assertEqual([name for name in self.names('-g', ARCHIVE)
                          if not name.startswith(('psxgpu_', 'rattle_of_psxgpu_'))], [])

    @unittest.skipIf(RUN, 'of another system')
    def test_install(self):
        """A program is built with what `make install` leaves; `make uninstall` takes it away."""
        there = ['make', '-s', '-C', ROOT, 'DESTDIR=' + self.folder, 'PREFIX=/usr']
        subprocess.run([*there, 'install'], check=True)
        usr = os.path.join(self.folder, 'usr')
        flags = ['-I', os.path.join(usr, 'include'), '-L', os.path.join(usr, 'lib'), '-lpsxgpu']
        flags.append('-Wl,-rpath,' + os.path.join(usr, 'lib'))
        path = self.build('installed', [CC, '-std=c99'], os.path.join(HEADER, 'example.c'), flags)
        self.assertIn('status', self.run_in_folder(path))
        self.assertTrue(os.access(os.path.join(usr, 'bin', 'psxgpu_tool'), os.X_OK))
        subprocess.run([*there, 'uninstall'], check=True)
        self.assertEqual([name for _, _, names in os.walk(usr) for name in names], [])

    @program.needs_player
    def test_manual_page(self):
        """Every command that `--help` names stands in it."""
        told = subprocess.run([program.PLAYER, '--help'], capture_output=True, text=True).stdout
        commands = re.findall(r'(?m)^  (\S+(?: [A-Z]| marks)*)  ', told)
        page = program.bytes_at(os.path.join(ROOT, 'man', 'psxgpu_tool.1')).decode()
        page = re.sub(' +', ' ', re.sub(r'[\\"]', '', page))
        self.assertGreater(len(commands), 10)
        self.assertEqual([command for command in commands if command not in page], [])

    def assert_snapshot(self, found, cut):
        """The machine's snapshot is the state in the program's file, followed by End alone."""
        self.assertEqual(found, cut[:len(found) - 4] + bytes(4))
        self.assertEqual(program.play('play', found)[0], 0)

    @program.needs_player
    def test_events(self):
        """Words, video memory, pictures and snapshots are the program's, word by word and in blocks."""
        path = self.build('events', [*C, *SANITIZED], 'events.c', [ARCHIVE])
        ways = [(capture, command, blocks) for capture in program.EXAMPLES for blocks in ([], ['blocks'])
                for command in ('play', 'vram', 'shot', 'cut 1', 'cut 4', 'cut 7', 'cut 12')]
        for capture, command, blocks in ways:
            data = program.bytes_at(capture)
            status, out, error = program.play(command, data)
            if status and 'cut' in command:
                continue
            with self.subTest(capture=os.path.basename(capture), command=command, blocks=blocks):
                done = subprocess.run([*RUN, path, *blocks, command.split()[-1]], input=data, capture_output=True)
                self.assertEqual((done.returncode, (done.stderr.decode().splitlines() or [''])[0]), (status, error))
                if 'cut' in command:
                    self.assert_snapshot(done.stdout, out)
                else:
                    self.assertEqual(done.stdout, out)

    @unittest.skipIf(RUN, 'an emulator has reads of its own')
    def test_input_of_events(self):
        """events.c repeats a read that a signal interrupts, and reports one that fails."""
        path = self.build('events', [*C, *SANITIZED], 'events.c', [ARCHIVE])
        ours, theirs = interruptible()
        with ours, theirs:
            run = subprocess.Popen([path, 'play'], stdin=theirs, stdout=subprocess.PIPE)
            send_interrupted(run, ours, b'PSXGPUC1' + bytes(4))
            self.assertEqual((run.communicate()[0], run.returncode), (b'status 14802000\n', 0))
        folder = os.open(HERE, os.O_RDONLY)
        done = subprocess.run([path, 'play'], stdin=folder, capture_output=True)
        os.close(folder)
        self.assertEqual((done.returncode, done.stderr), (5, b'events: standard input cannot be read\n'))
