"""Words from a caller's buffer, and output into one"""
import array
import contextlib
import ctypes
import unittest

import psxgpu
from psxgpu.capture import fill, rectangle, screen
from tests.library.support import needs_library

setUpModule = needs_library


class Buffers(unittest.TestCase):
    """Words from a buffer of 4-byte numbers, and output into a buffer of the caller."""

    def setUp(self):
        self.machine = psxgpu.Machine()
        self.addCleanup(self.machine.close)
        for word in screen(0, 0, 320, 240):
            self.machine.gp1(word)

    def test_words(self):
        words = [*fill(0x0000FF, 0, 0, 16, 16), *rectangle(0x00FF00, 4, 4, 3, 3)]
        buffers = [array.array('I', words), memoryview(array.array('I', words)), (ctypes.c_uint32 * len(words))(*words),
                   array.array('Q', words), memoryview(array.array('I', words)).cast('B')]
        with contextlib.suppress(ImportError):
            import numpy
            plain = numpy.array(words, numpy.uint32)
            wide = numpy.zeros(2 * len(words), numpy.uint32)
            wide[::2] = words
            buffers += [plain, plain.reshape(2, 3), wide[::2], plain.view(numpy.int32), plain.astype('>u4'),
                        plain.astype(numpy.int64)]
        for buffer in buffers:
            with self.subTest(repr(buffer)), psxgpu.Machine() as machine:
                machine.gp0([0xE3000000, 0xE407FFFF])
                machine.gp0(buffer)
                self.assertEqual((machine.cell(0, 0), machine.cell(4, 4)), (31, 31 << 5))

    def test_wrong_words(self):
        for wrong in (array.array('d', [1.0]), array.array('f', [1.0]), array.array('u', 'word')):
            self.assertRaises(TypeError, self.machine.gp0, wrong)
        self.assertRaises(ValueError, self.machine.gp0, array.array('q', [-1]))

    def test_into(self):
        self.machine.gp0(fill(0x0000FF, 0, 0, 320, 240))
        memory, rows = bytearray(1 << 20), array.array('H', bytes(1 << 20))
        for buffer in (memory, rows, memoryview(memory)):
            self.assertEqual(self.machine.vram(into=buffer), 1 << 20)
            self.assertEqual(bytes(buffer), self.machine.vram())
        picture = bytearray(b'more' * (320 * 240 + 1))
        self.assertEqual(self.machine.picture_rgba(into=picture), 4 * 320 * 240)
        self.assertEqual(bytes(picture), self.machine.picture_rgba() + b'more')

    def test_wrong_rooms(self):
        room = bytearray(b'x' * 100)
        for call in (self.machine.vram, self.machine.picture_rgba):
            with self.assertRaises(psxgpu.Refused) as caught:
                call(into=room)
            self.assertEqual((str(caught.exception), room), ('psxgpu: no-room', b'x' * 100))
            for wrong in (bytes(1 << 20), memoryview(bytearray(1 << 21))[::2], 'text', 5):
                self.assertRaises(TypeError, call, into=wrong)
