"""What the tests of the tools share. Tests that need psxgpu_tool are skipped where there is none."""
import os
import shutil
import subprocess
import sys
import tempfile
import unittest

TOP = os.path.dirname(os.path.dirname(os.path.abspath(__file__)))
EXAMPLES = os.path.join(TOP, 'examples')

from psxgpu.players import player
from psxgpu.command import ToolError


def built_player():
    try:
        return os.path.abspath(player.find())
    except ToolError:
        return None


PLAYER = built_player()
needs_player = unittest.skipUnless(PLAYER, 'psxgpu_tool is not built')


def needs(*programs):
    """Returns a `setUpModule` that skips the module's tests if a program is missing."""
    def set_up_module():
        missing = [name for name in programs if not shutil.which(name)]
        if missing:
            raise unittest.SkipTest('no %s on this machine' % ' and no '.join(missing))
    return set_up_module


def needs_built(path, goal):
    """Returns a `setUpModule` that skips the module's tests if a file that `make GOAL` builds is missing."""
    def set_up_module():
        if not os.path.exists(path):
            raise unittest.SkipTest('no %s: make %s' % (os.path.relpath(path, TOP), goal))
    return set_up_module


def example(name):
    return os.path.join(EXAMPLES, name + '.capture')


def run_tool(name, *words, **settings):
    """Runs `psxgpu NAME ..`; what it wrote is text, unless `text` says otherwise."""
    environment = dict(os.environ, PLAYER=PLAYER or '', PYTHONPATH=TOP)
    settings = dict(dict(capture_output=True, text=True, env=environment), **settings)
    return subprocess.run([sys.executable, '-m', 'psxgpu', name, *words], **settings)


class InFolder(unittest.TestCase):
    """A test with a folder of its own."""

    def setUp(self):
        folder = tempfile.TemporaryDirectory()
        self.addCleanup(folder.cleanup)
        self.folder = folder.name

    def path(self, name):
        return os.path.join(self.folder, name)

    def write(self, name, data):
        with open(self.path(name), 'wb' if isinstance(data, bytes) else 'w') as file:
            file.write(data)
        return self.path(name)

    def read(self, name):
        with open(self.path(name), 'rb') as file:
            return file.read()
