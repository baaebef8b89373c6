"""GPU dumps in the viewer, against the program: python3 -m tests.viewer.test_dumps, after `make web`."""
import gzip
import hashlib
import io
import os
import tempfile
import unittest

from tests.viewer.page import EXAMPLES, Page, program

from psxgpu.dumps.export import About, Export
from psxgpu.dumps.reader import Dump
from psxgpu.dumps.translation import Translation
from psxgpu.stream import Stream


def dump_of(name):
    """The dump of a flat example, and the capture that it becomes."""
    with open(os.path.join(EXAMPLES, name + '.capture'), 'rb') as file:
        stream = Stream(file, name)
        dump = b''.join(Export(stream, stream.version == 3, About()))
    return dump, b''.join(Translation(Dump(io.BytesIO(dump), name)))


def sum_of(data):
    return hashlib.sha256(data).hexdigest()


class Dumps(unittest.TestCase):
    @classmethod
    def setUpClass(cls):
        cls.page = cls.enterClassContext(Page())

    def shows(self, capture):
        """The page shows what the program draws of a capture."""
        self.page.evaluate('probe.app.seek(1e12)')
        self.assertEqual(self.page.ask('memory'), sum_of(program('vram', data=capture)[0]))
        self.assertEqual(self.page.ask('list'), program('list', data=capture)[0].decode())

    def test_examples(self):
        for name in ('flips', 'smear', 'tall', 'read-back'):
            with self.subTest(name):
                dump, capture = dump_of(name)
                for data in (dump, gzip.compress(dump)):
                    self.assertEqual(self.page.load(data, name + '.psxgpu'), True)
                    self.shows(capture)

    def test_chosen(self):
        """A dump that the reader chooses."""
        dump, capture = dump_of('flips')
        with tempfile.TemporaryDirectory() as folder:
            path = os.path.join(folder, 'chosen.psxgpu')
            with open(path, 'wb') as file:
                file.write(dump)
            self.page.choose('#open', path)
            self.page.until('document.title.startsWith("chosen.psxgpu")')
        self.page.ask('played')
        self.shows(capture)

    def test_cut(self):
        """The page says where it is cut, and offers what is before."""
        dump, _ = dump_of('flips')
        said = self.page.load(dump[:-2], 'cut.psxgpu')
        self.assertRegex(said, r'^cut.psxgpu: byte \d+ of the dump: the dump ends inside a packet, which begins at')
        self.assertIn('Open what is before it', self.page.evaluate('document.getElementById("said").textContent'))
