"""What tests of the page have in common: an example that is opened as a reader opens it."""
import os
import tempfile
import unittest

from tests.viewer.page import EXAMPLES, Page


def holding(lines, x, y):
    """The lines of `list` whose area holds a cell."""
    def holds(line):
        box = line.split()[3:]
        return len(box) == 4 and int(box[0]) <= x <= int(box[2]) and int(box[1]) <= y <= int(box[3])
    return list(filter(holds, lines))


class Reader(unittest.TestCase):
    @classmethod
    def setUpClass(cls):
        cls.page = cls.enterClassContext(Page())
        cls.folder = cls.enterClassContext(tempfile.TemporaryDirectory())

    def setUp(self):
        self.file = os.path.join(EXAMPLES, 'textured-frame.capture')
        self.page.evaluate('document.title = ""')
        self.page.choose('#open', self.file)
        self.page.until('document.title.startsWith("textured-frame.capture")')
        self.page.ask('played')
        self.page.evaluate('probe.app.seek(0)')
        self.page.evaluate('document.activeElement.blur()')

    def tearDown(self):
        self.assertNotIn('A fault', self.page.evaluate('document.getElementById("said").textContent'))

    @property
    def data(self):
        """The bytes of the example that is open."""
        with open(self.file, 'rb') as file:
            return file.read()

    @property
    def at(self):
        return self.page.evaluate('probe.app.at')
