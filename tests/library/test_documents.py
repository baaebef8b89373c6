"""docs/LIBRARY.md and EMBEDDING.md do what they say, after `make lib`

The Python lines are a doctest. A block after a name such as `triangle.c` is that file. Lines of a console block after
`$ ` are run, beside these files, and what they write is compared. The browser's lines are for tests/web/test_web.py."""
import doctest
import os
import re
import subprocess
import tempfile
import unittest

ROOT = os.path.dirname(os.path.dirname(os.path.dirname(os.path.abspath(__file__))))

from tests.library.support import needs_library

setUpModule = needs_library
PAGE = os.path.join(ROOT, 'docs', 'LIBRARY.md')
PAGES = (PAGE, os.path.join(ROOT, 'docs', 'EMBEDDING.md'))


def blocks(page, kind):
    """The text before each block of this kind of a page, and the block."""
    with open(page) as file:
        return re.findall(r'(?ms)([^\n]*)\n\n```%s\n(.*?)^```' % kind, file.read())


class Page(unittest.TestCase):
    def test_python(self):
        os.chdir(ROOT)
        done = doctest.testfile(PAGE, module_relative=False)
        self.assertGreater(done.attempted, 10)
        self.assertEqual(done.failed, 0)

    def play(self, page, folder):
        """Runs the commands of a page, beside its files."""
        for before, text in blocks(page, 'c'):
            with open(os.path.join(folder, re.search(r'`(\w+\.c)`', before)[1]), 'w') as file:
                file.write(text)
        for _, text in blocks(page, 'console'):
            for command, want in re.findall(r'(?m)^\$ (.*)\n((?:[^$].*\n)*)', text):
                with self.subTest(command=command):
                    done = subprocess.run(['sh', '-c', command], cwd=folder, stdout=subprocess.PIPE,
                                          stderr=subprocess.STDOUT, text=True)
                    self.assertEqual(done.stdout, want)

    def test_console(self):
        with tempfile.TemporaryDirectory() as folder:
            for name in ('c', 'out', 'examples'):
                os.symlink(os.path.join(ROOT, name), os.path.join(folder, name))
            for page in PAGES:
                self.play(page, folder)
