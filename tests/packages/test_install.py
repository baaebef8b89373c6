"""The tools as an installed command. Needs pip and the packages that build a wheel; without them it is skipped."""
import importlib.util
import os
import shutil
import subprocess
import sys
import unittest

from tests import support
import psxgpu

NEEDED = ('pip', 'setuptools', 'wheel')
MISSING = [name for name in NEEDED if importlib.util.find_spec(name) is None]


@unittest.skipIf(MISSING, 'not installed: ' + ', '.join(MISSING))
class Installed(support.InFolder):
    def test_one_command(self):
        source = self.path('source')
        os.mkdir(source)
        for name in ('pyproject.toml', 'setup.py', 'LICENSE-MIT', 'LICENSE-APACHE'):
            shutil.copy(os.path.join(support.TOP, name), source)
        shutil.copytree(os.path.join(support.TOP, 'psxgpu'), os.path.join(source, 'psxgpu'))
        target = self.path('target')
        subprocess.run([sys.executable, '-m', 'pip', 'install', '-q', '--no-build-isolation', '--no-deps', '--no-index',
                        '--target', target, source], check=True, capture_output=True)
        dump = self.write('dump', bytes(2048))
        done = subprocess.run([os.path.join(target, 'bin', 'psxgpu'), 'compare', dump, dump], capture_output=True,
                              text=True, env=dict(os.environ, PYTHONPATH=target))
        self.assertEqual((done.returncode, done.stdout, done.stderr), (0, 'equal\n', ''))
        done = subprocess.run([sys.executable, '-c', 'import psxgpu, psxgpu.capture, psxgpu.machine, psxgpu.packets, '
                               'psxgpu.commands.bisect as it; print(it.__file__)'], capture_output=True, text=True,
                              cwd=self.folder, env=dict(os.environ, PYTHONPATH=target))
        self.assertEqual((done.stdout, done.stderr),
                         (os.path.join(target, 'psxgpu', 'commands', 'bisect.py') + '\n', ''))


@unittest.skipUnless(shutil.which('make'), 'make is not installed')
class Made(support.InFolder):
    """`make install` into a folder, and `make uninstall`. The program is /bin/true."""

    def make(self, target):
        subprocess.run(['make', '-s', '-C', support.TOP, target, 'DESTDIR=' + self.folder, 'PREFIX=/usr/local',
                        'PLAYER=/bin/true', 'PYTHON=' + sys.executable], check=True, capture_output=True)

    def files(self):
        return sorted(os.path.relpath(os.path.join(folder, name), self.folder)
                      for folder, _, names in os.walk(self.folder) for name in names)

    def test_install_and_uninstall(self):
        self.make('install')
        there = self.files()
        for name in ('bin/psxgpu', 'bin/psxgpu_tool', 'share/man/man1/psxgpu.1', 'share/psxgpu-tool/CONTRIBUTING.md',
                     'share/psxgpu-tool/docs/PLAYER.md', 'share/psxgpu-tool/examples/player.c',
                     'share/psxgpu-tool/examples/toy_gpu.h', 'share/psxgpu-tool/examples/player.py',
                     'share/psxgpu-tool/recorder/psxgpu_capture.h', 'share/psxgpu-tool/recorder/record'):
            self.assertIn('usr/local/' + name, there)
        self.assertFalse([name for name in there if '/tests/' in name or '__pycache__' in name])
        program = os.path.join(self.folder, 'usr/local/bin/psxgpu')
        environment = {name: value for name, value in os.environ.items() if name != 'PYTHONPATH'}
        done = subprocess.run([program, '--version'], capture_output=True, text=True, cwd=self.folder, env=environment)
        self.assertEqual((done.stdout, done.stderr), ('psxgpu %s\n' % psxgpu.__version__, ''))
        self.make('uninstall')
        self.assertEqual(self.files(), [])
