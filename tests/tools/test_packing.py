"""Files that are packed: zstd by the program and by a module, what is packed by its name, and files made of pieces."""
import contextlib
import importlib.util
import io
import lzma
import os
import unittest
from unittest import mock

from tests import support
from tests.tools.dumps_support import CAPTURE, HAS_ZSTD, zstd
from psxgpu.files import read_capture
from psxgpu.packing import Damaged, Peeked, Pieces, packing, unpacked
from psxgpu.errors import ToolError

HAS_MODULE = any(importlib.util.find_spec(name.split('.')[0]) and importlib.util.find_spec(name)
                 for name in ('zstandard', 'compression.zstd'))


@contextlib.contextmanager
def without_program():
    """A machine without the program zstd."""
    with mock.patch.dict(os.environ, PATH='/nonexistent'):
        yield


@unittest.skipUnless(HAS_ZSTD, 'no program zstd')
class Zstd(support.InFolder):
    def test_no_zstd(self):
        """The line names the package."""
        path = self.write('a.zst', zstd(CAPTURE))
        with without_program(), mock.patch('psxgpu.zstd.module', lambda: None):
            with self.assertRaisesRegex(ToolError, '^%s: a zstd file: install the package zstd, or python3-' % path):
                read_capture(path)
            with self.assertRaisesRegex(ToolError, 'b.zst: a zstd file: install'), packing(self.path('b.zst')) as file:
                file.write(b'x')
        self.assertFalse(os.path.exists(self.path('b.zst')))

    @unittest.skipUnless(HAS_MODULE, 'no module for zstd')
    def test_module(self):
        path = self.write('a.zst', zstd(CAPTURE[:100]) + zstd(CAPTURE[100:]))
        cut = self.write('b.zst', zstd(CAPTURE)[:-9])
        with without_program():
            self.assertEqual(read_capture(path), CAPTURE)
            with self.assertRaisesRegex(Damaged, 'name: damaged: '):
                read_capture(cut, 'name')
            with packing(self.path('c.zst')) as file:
                file.write(CAPTURE)
        self.assertEqual(read_capture(self.path('c.zst')), CAPTURE)


class Xz(support.InFolder):
    """Streams of xz one after another, zeros after them, and other bytes."""

    def test_streams(self):
        data = CAPTURE + bytes(3000000)
        one = lzma.compress(data)
        for packed, whole in ((one, data), (one + one, data + data), (one + bytes(8) + one + bytes(4), data + data)):
            with unpacked(self.write('a.xz', packed)) as file:
                self.assertEqual(file.read(), whole)

    def test_other_bytes(self):
        one = lzma.compress(CAPTURE)
        for packed in (one + b'x', one + bytes(3), one + 9 * b'abc', one[:-5], one + one[:20], one[:20]):
            with self.assertRaisesRegex(Damaged, 'name: damaged: '):
                read_capture(self.write('a.xz', packed), 'name')


class Packing(support.InFolder):
    def test_by_name(self):
        for ending, begin in (('', CAPTURE[:4]), ('.gz', b'\x1f\x8b'), ('.xz', b'\xfd7zXZ'),
                              *([('.zst', b'\x28\xb5\x2f\xfd')] if HAS_ZSTD else [])):
            for name in ('a', 'b'):
                with packing(self.path(name + ending)) as file:
                    file.write(CAPTURE)
            self.assertTrue(self.read('a' + ending).startswith(begin))
            self.assertEqual(self.read('a' + ending), self.read('b' + ending))
            with unpacked(self.path('a' + ending)) as file:
                self.assertEqual(file.read(), CAPTURE)

    def test_a_fault_leaves_no_file(self):
        for ending in ('.gz', '.xz', '.zst'):
            path = self.write('a' + ending, b'kept')
            with self.assertRaises(KeyError), packing(path) as file:
                file.write(b'x')
                raise KeyError
            self.assertEqual(self.read('a' + ending), b'kept')


class Parts(unittest.TestCase):
    def test_peeked(self):
        for sizes in ([-1], [0, 3, 3, -1], [6, 2, -1], [100], [1] * 9):
            file, out = Peeked(io.BytesIO(b'abcdefgh'), 6), b''
            self.assertEqual(file.first, b'abcdef')
            for size in sizes:
                out += file.read(size)
            self.assertEqual(out, b'abcdefgh')

    def test_pieces(self):
        """The bytes before a fault come first."""
        def failing():
            yield b'abc'
            raise Damaged('here')
        pieces = failing()
        file = Pieces(lambda: next(pieces))
        self.assertEqual(file.read(2), b'ab')
        self.assertEqual(file.read(5), b'c')
        for _ in range(2):
            with self.assertRaisesRegex(Damaged, 'here'):
                file.read(1)
        file = Pieces(iter((b'abc', b'de', b'')).__next__)
        self.assertEqual([file.read(4), file.read(4)], [b'abcd', b'e'])
