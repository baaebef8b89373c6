"""A checkout that is not installed: bin/psxgpu, and the players among the examples, from any folder."""
import os
import subprocess
import sys

from tests import support
import psxgpu

COMMAND = os.path.join(support.TOP, 'bin', 'psxgpu')
NO_DITHER = os.path.join(support.EXAMPLES, 'no_dither.py')
BARE = {name: value for name, value in os.environ.items() if name != 'PYTHONPATH'}


class Checkout(support.InFolder):
    def run_bare(self, *words, **settings):
        """Runs a command in an empty folder, with nothing of the checkout on Python's path."""
        return subprocess.run(words, cwd=self.folder, env=settings.pop('env', BARE), capture_output=True, **settings)

    def test_command(self):
        os.symlink(COMMAND, self.path('linked'))
        for command in (COMMAND, './linked'):
            done = self.run_bare(command, '--version', text=True)
            self.assertEqual((done.stdout, done.stderr), ('psxgpu %s\n' % psxgpu.__version__, ''))
        done = self.run_bare('sh', '-c', 'psxgpu check none', text=True,
                             env=dict(BARE, PATH=os.path.dirname(COMMAND) + os.pathsep + os.environ['PATH']))
        self.assertEqual((done.returncode, done.stderr), (2, 'psxgpu check: none: No such file or directory\n'))

    @support.needs_player
    def test_no_dither(self):
        with open(support.example('textured-frame'), 'rb') as file:
            data = file.read()
        done = self.run_bare(sys.executable, NO_DITHER, input=data, env=dict(BARE, PLAYER=support.PLAYER))
        self.assertEqual((done.returncode, len(done.stdout), done.stderr), (0, 1048576, b''))
