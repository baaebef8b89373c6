"""docs/LIBRARY.md does what it says of Rust: a crate outside of the checkout, made of its blocks alone, draws, records
and runs the suite. One that uses the packed crate draws, too. The example of docs/EMBEDDING.md draws and records."""
import os
import re
import shutil
import subprocess
import tarfile
import tempfile
import unittest

from packages.crate import crates
from tests.library.support import play
from tests.rust.support import ARCHIVE, TARGET, cargo, needs_driver
from tests.support import PLAYER, TOP, needs, needs_player

setUpModule = needs_driver
CHECKOUT = '../psxgpu-tool/rust/psxgpu'


def section():
    """The part of the page on Rust."""
    with open(os.path.join(TOP, 'docs', 'LIBRARY.md')) as file:
        return re.search(r'(?ms)^## Rust\n(.*?)^## ', file.read())[1]


def files():
    """The files of the page by their names."""
    found = re.findall(r'(?ms)`([\w./]+)`\)?:\n\n```(?:toml|rust)\n(.*?)^```', section())
    return dict(found)


def commands():
    """The commands of the page, and what each writes."""
    text = re.search(r'(?ms)^```sh\n(.*?)^```', section())[1]
    return re.findall(r'(?m)^\$ (.*)\n((?:[^$].*\n)*)', text)


class Example(unittest.TestCase):
    @needs_player
    def test_embed(self):
        with open(os.path.join(TOP, 'docs', 'EMBEDDING.md')) as file:
            self.assertIn('    cargo run --example embed -- frames.capture\n', file.read())
        with tempfile.TemporaryDirectory() as folder:
            path = os.path.join(folder, 'frames.capture')
            done = cargo('run', '--example', 'embed', '--', path)
            lines = ['320 by 240, first pixel [%s]\n' % pixel for pixel in ('ff, 00, 00', '00, ff, 00', '00, 00, ff')]
            self.assertEqual((done.returncode, done.stdout), (0, ''.join(lines)), done.stderr)
            with open(path, 'rb') as file:
                status, pictures, _ = play('frames marks', file.read())
        size = len('P6\n320 240\n255\n')
        whole = size + 3 * 320 * 240
        self.assertEqual((status, len(pictures)), (0, 3 * whole))
        pixels = [pictures[at + size:at + size + 3] for at in range(0, 3 * whole, whole)]
        self.assertEqual(pixels, [b'\xff\0\0', b'\0\xff\0', b'\0\0\xff'])


class Stranger(unittest.TestCase):
    def setUp(self):
        folder = tempfile.TemporaryDirectory()
        self.addCleanup(folder.cleanup)
        self.folder = os.path.join(folder.name, 'mine')
        os.makedirs(os.path.join(folder.name, 'bin'))
        os.symlink(TOP, os.path.join(folder.name, 'psxgpu-tool'))
        if PLAYER:
            os.symlink(PLAYER, os.path.join(folder.name, 'bin', 'psxgpu_tool'))
        self.path = os.path.join(folder.name, 'bin') + os.pathsep + os.environ['PATH']
        for name, text in files().items():
            path = os.path.join(self.folder, name)
            os.makedirs(os.path.dirname(path), exist_ok=True)
            with open(path, 'w') as file:
                file.write(text)

    def run_command(self, command, **more):
        environment = dict(os.environ, PATH=self.path, CARGO_NET_OFFLINE='true', **more)
        environment.setdefault('CARGO_TARGET_DIR', os.path.join(TARGET, 'stranger'))
        return subprocess.run(['sh', '-c', command], cwd=self.folder, env=environment, stdout=subprocess.PIPE,
                              stderr=subprocess.STDOUT, text=True)

    def change_manifest(self, old, new):
        path = os.path.join(self.folder, 'Cargo.toml')
        with open(path) as file:
            text = file.read()
        self.assertIn(old, text)
        with open(path, 'w') as file:
            file.write(text.replace(old, new))

    def test_its_files(self):
        self.assertEqual(list(files()), ['Cargo.toml', 'src/main.rs', 'tests/conformance.rs'])
        self.assertEqual(len(commands()), 3)

    @needs_player
    def test_commands(self):
        for command, want in commands():
            with self.subTest(command=command):
                done = self.run_command(command)
                self.assertEqual(done.returncode, 0, done.stdout)
                if command.startswith('cargo test'):
                    self.assertIn('1 passed; 0 failed', done.stdout)
                else:
                    self.assertEqual(done.stdout, want)

    def test_the_packed_crate(self):
        needs('git')()
        name, = crates(os.path.dirname(self.folder))
        with tarfile.open(os.path.join(os.path.dirname(self.folder), name)) as made:
            made.extractall(os.path.dirname(self.folder))
        self.change_manifest(CHECKOUT, '../' + name[:-len('.crate')])
        shutil.rmtree(os.path.join(self.folder, 'tests'))
        done = self.run_command('cargo run -q', PSXGPU_LIB_DIR=os.path.dirname(ARCHIVE))
        self.assertEqual((done.returncode, done.stdout), (0, '001f\n'))

    def test_without_a_library(self):
        """The message names what to do, and the crate's safe part needs none."""
        done = self.run_command('cargo build -q', PSXGPU_LIB_DIR=self.folder, CARGO_TARGET_DIR='target')
        self.assertNotEqual(done.returncode, 0)
        self.assertIn('`make lib` builds it into out/ of a checkout', done.stdout)
        with open(os.path.join(self.folder, 'src', 'main.rs'), 'w') as file:
            file.write('fn main() {\n    println!("{} tests", psxgpu::conformance::tests().len());\n}\n')
        self.change_manifest('psxgpu" }', 'psxgpu", default-features = false }')
        done = self.run_command('cargo run -q', PSXGPU_LIB_DIR=self.folder, CARGO_TARGET_DIR='target')
        self.assertRegex(done.stdout, r'^\d+ tests\n$')


if __name__ == '__main__':
    unittest.main()
