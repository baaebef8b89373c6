"""The tool view: a page in the folder for temporary files, which the browser of the user opens."""
import os
import sys
import unittest

from psxgpu import capture as c
from tests import support
from tests.tools.test_page import SMALL, cases_of

DAY = 86400


@unittest.skipIf(sys.platform in ('darwin', 'win32'), 'the opener of this system is another one')
class View(support.InFolder):
    def setUp(self):
        super().setUp()
        self.viewer = self.write('viewer.html', SMALL)
        self.capture = self.write('a.capture', c.Capture().gp0(c.fill(0xFF, 0, 0, 16, 16)).bytes())
        for name in ('bin', 'temporary'):
            os.mkdir(self.path(name))

    def opener(self, text):
        """Puts an xdg-open in place of the system's."""
        os.chmod(self.write('bin/xdg-open', '#!/bin/sh\n' + text), 0o755)

    def view(self, *words):
        environment = dict(os.environ, PYTHONPATH=support.TOP, TMPDIR=self.path('temporary'),
                           PATH=self.path('bin') + os.pathsep + '/usr/bin:/bin')
        return support.run_tool('view', self.capture, '--viewer', self.viewer, *words, env=environment)

    def pages(self):
        return [os.path.join('temporary', name) for name in os.listdir(self.path('temporary'))]

    def test_the_browser_gets_the_page(self):
        self.opener('cp "$1" %s\n' % self.path('opened'))
        done = self.view('--at', '2')
        self.assertEqual((done.returncode, done.stdout, done.stderr), (0, '', ''))
        page, = self.pages()
        self.assertEqual(self.read('opened'), self.read(page))
        self.assertEqual(cases_of(self.read('opened'))[0]['place'], 'event=2')

    def test_it_prints_the_path(self):
        self.opener('touch %s\n' % self.path('opened'))
        done = self.view('--print')
        self.assertEqual((done.returncode, done.stdout), (0, self.path(self.pages()[0]) + '\n'))
        self.assertFalse(os.path.exists(self.path('opened')))

    def test_an_opener_that_fails(self):
        self.opener('exit 3\n')
        done = self.view()
        self.assertEqual((done.returncode, done.stderr), (2, 'psxgpu view: xdg-open: status 3: open %s in a browser\n'
                                                          % self.path(self.pages()[0])))

    def test_only_old_pages_are_removed(self):
        """A user's file stays, and so does a page that a browser may read again."""
        old, = [self.view('--print').stdout.strip()]
        new = self.view('--print').stdout.strip()
        mine = self.write('temporary/psxgpu-view-mine.html', '<!doctype html>\n')
        for path in (old, mine):
            os.utime(path, (os.stat(path).st_mtime - 2 * DAY,) * 2)
        last = self.view('--print').stdout.strip()
        self.assertEqual(set(map(self.path, self.pages())), {new, mine, last})


if __name__ == '__main__':
    unittest.main()
