"""The command: its names, its version, what it says of words that it does not know, and its line of progress."""
import argparse
import os
import pty
import subprocess
import sys

from tests import support
from psxgpu import __version__
from psxgpu import capture as c
from psxgpu.__main__ import TOOLS, module_of


class Command(support.InFolder):
    def expect_line(self, words, text):
        """One line and status 2."""
        done = subprocess.run([sys.executable, '-m', 'psxgpu', *words], cwd=self.folder, capture_output=True, text=True,
                              env=dict(os.environ, PLAYER=support.PLAYER or '', PYTHONPATH=support.TOP), check=False)
        self.assertEqual((done.returncode, done.stdout, done.stderr.count('\n')), (2, '', 1), done)
        self.assertIn(text, done.stderr)

    def test_version(self):
        done = support.run_tool('--version')
        self.assertEqual((done.returncode, done.stdout, done.stderr), (0, 'psxgpu %s\n' % __version__, ''))

    def test_help_names_all(self):
        done = support.run_tool('--help')
        self.assertEqual((done.returncode, done.stderr), (0, ''))
        for name in TOOLS:
            self.assertRegex(done.stdout, r'\n  %s +[A-Z]\w+' % name)

    def test_every_argument_is_explained(self):
        for name in TOOLS:
            module = module_of(name)
            parser = argparse.ArgumentParser(add_help=False)
            module.arguments(parser)
            with self.subTest(name):
                self.assertIn('\n    psxgpu %s ' % name, module.__doc__)
                for action in parser._actions:
                    self.assertTrue(action.help, action.dest)

    def test_unknown_words(self):
        self.write('house.capture', c.Capture().bytes())
        self.expect_line(['packts'], "there is no tool 'packts', perhaps packets: the tools are corpus, ")
        self.expect_line(['house.capture'], 'house.capture is a file: the name of a tool comes before it')
        self.expect_line(['first'], 'psxgpu first: the following arguments are required: N')
        self.expect_line(['first', 'x', 'house.capture'], 'x is not a number from 0 to')
        self.expect_line(['packets', 'house.capture', '--name', 'sprites'],
                         "invalid choice: 'sprites' (choose from 'fill',")
        self.expect_line(['packets', 'house.capture', '--events', '9', '3'], 'the first comes after the last')

    @support.needs_player
    def test_nothing_to_list(self):
        path = self.write('house.capture', c.Capture().gp0(c.fill(0, 0, 0, 16, 16)).stat().bytes())
        for words in (['--name', 'polygon'], ['--events', '5', '9'], ['--cell', '16', '16']):
            self.expect_line(['packets', path, *words], 'house.capture: nothing to list')
        done = support.run_tool('packets', path, '--events', '4', '9')
        self.assertEqual((done.returncode, done.stdout), (0, '4 stat\n'))

    def test_closed_streams(self):
        """Standard streams that are closed are an error, and no traceback."""
        self.write('house.capture', c.Capture().bytes())
        for words in ('first 0 house.capture >&-', 'first 0 <&-', '--help >&-', 'first 0 house.capture out 2>&-'):
            done = subprocess.run(['sh', '-c', '%s -m psxgpu %s' % (sys.executable, words)], cwd=self.folder,
                                  capture_output=True, text=True, check=False,
                                  env=dict(os.environ, PYTHONPATH=support.TOP))
            self.assertNotIn('Traceback', done.stderr)
            self.assertIn(done.returncode, (0, 2))


class Progress(support.InFolder):
    def test_line_at_a_terminal(self):
        """A tool that takes more than two seconds says how far it is, and erases that in the end."""
        ours, theirs = pty.openpty()
        text = ('import time\nfrom psxgpu import progress\n'
                'with progress.shown("it", is_quiet=True) as line:\n    line.part = 0.25\n    time.sleep(2.6)\n')
        subprocess.run([sys.executable, '-c', text], stderr=theirs, stdout=subprocess.DEVNULL, check=True)
        os.close(theirs)
        said = os.read(ours, 10000).decode()
        os.close(ours)
        self.assertRegex(said, r'^\r\x1b\[Kit: 25 %, 0:0\d left')
        self.assertTrue(said.endswith('\r\x1b[K'))

    def test_nothing_elsewhere(self):
        text = ('import time\nfrom psxgpu import progress\n'
                'with progress.shown("it", is_quiet=True) as line:\n    time.sleep(2.4)\n')
        done = subprocess.run([sys.executable, '-c', text], capture_output=True, check=True)
        self.assertEqual((done.stdout, done.stderr), (b'', b''))
