"""Whole captures by psxgpu.py: the size of an output, files and functions that take it, refusals"""
import ctypes
import io
import os
import tempfile
import unittest
from unittest import mock

import psxgpu
from psxgpu.capture import Capture
from psxgpu.machine import playing
from psxgpu.machine.library import NO_MEMORY, Ended, Output, library
from tests.library.support import EXAMPLES, bytes_at, needs_library

setUpModule = needs_library
OPEN, BAD_MODE = 15, 16
STATUS = Capture().stat(3).bytes()
LINES = b'14802000\n' * 3 + b'status 14802000\n'


class Trickle(io.RawIOBase):
    """An unbuffered file that takes at most 7 bytes of each write, and none after `most`."""

    def __init__(self, most=1 << 30):
        super().__init__()
        self.taken, self.most = bytearray(), most

    def writable(self):
        return True

    def write(self, data):
        count = min(7, len(data), self.most - len(self.taken))
        self.taken += data[:count]
        return count or None


def ending(call, *arguments):
    """What a call returns, and an empty text; or of a refusal what was written before, and its text."""
    try:
        return call(*arguments), ''
    except psxgpu.Refused as refused:
        return refused.output if call is psxgpu.play else refused.written, str(refused)


class Sinks(unittest.TestCase):
    def test_examples(self):
        """In every mode the size is that of the output, and a file and a function receive the output."""
        for path in EXAMPLES:
            data = bytes_at(path)
            for mode in psxgpu.MODES:
                how, file, pieces = (mode, (20, 30) if mode == 'pixel' else None), io.BytesIO(), []
                with self.subTest(path=os.path.basename(path), mode=mode):
                    output, text = ending(psxgpu.play, data, *how)
                    self.assertEqual(ending(psxgpu.play_size, data, *how), (len(output), text))
                    self.assertEqual(ending(psxgpu.play_to, data, file, *how), (len(output), text))
                    self.assertEqual(ending(psxgpu.play_to, data, pieces.append, *how), (len(output), text))
                    self.assertEqual((file.getvalue(), b''.join(pieces)), (output, output))
                    self.assertEqual([len(it) for it in pieces[:-1]], [playing.PIECE] * (len(pieces) - 1))

    def test_files(self):
        """A file of the system takes the whole output, also without a buffer."""
        with tempfile.TemporaryDirectory() as folder:
            path = os.path.join(folder, 'a.vram')
            for buffering in (0, -1):
                with open(path, 'wb', buffering) as file:
                    self.assertEqual(psxgpu.play_to(STATUS, file), 1048576)
                self.assertEqual(bytes_at(path), bytes(1048576))
        slow = Trickle()
        self.assertEqual((psxgpu.play_to(STATUS, slow, 'play'), bytes(slow.taken)), (len(LINES), LINES))
        slow = Trickle(20)
        self.assertRaises(BlockingIOError, psxgpu.play_to, STATUS, slow, 'play')
        self.assertEqual(bytes(slow.taken), LINES[:20])

    def test_exceptions(self):
        """What a sink raises is raised, the sink is not called again, and the output is freed."""
        for last in (1, 2, 16):
            calls = []

            def sink(piece):
                calls.append(piece)
                if len(calls) == last:
                    raise OSError('full')
            with mock.patch.object(library(), 'output_free', wraps=library().output_free) as free:
                self.assertRaisesRegex(OSError, 'full', psxgpu.play_to, STATUS, sink)
            self.assertEqual((len(calls), free.call_count), (last, 1))
        for wrong in (None, 5, 'a.vram', io.StringIO()):
            self.assertRaises(TypeError, psxgpu.play_to, STATUS, wrong)

    def test_no_second_play(self):
        """An output of any length is played once: by no call with a buffer."""
        with mock.patch.object(library(), 'play', side_effect=AssertionError), \
                mock.patch.object(library(), 'play_output', wraps=library().play_output) as once:
            self.assertEqual(len(psxgpu.play(STATUS)), 1048576)
        self.assertEqual(once.call_count, 1)


class Refusals(unittest.TestCase):
    def refused(self, call, *arguments):
        with self.assertRaises(psxgpu.Refused) as caught:
            call(*arguments)
        return caught.exception

    def test_before_the_end(self):
        """A capture that breaks off: what was written before is passed on, counted, or in the error."""
        data, line, file = STATUS[:-4], LINES[:27], io.BytesIO()
        whole = self.refused(psxgpu.play, data, 'play')
        size = self.refused(psxgpu.play_size, data, 'play')
        to = self.refused(psxgpu.play_to, data, file, 'play')
        for error in (whole, size, to):
            self.assertEqual((str(error), error.written), ('psxgpu: truncated at event 4 byte %d' % len(data), 27))
        self.assertEqual((whole.output, size.output, to.output, file.getvalue()), (line, b'', b'', line))

    def test_no_output(self):
        calls = []
        self.assertEqual(self.refused(psxgpu.play_to, b'', calls.append).written, 0)
        self.assertEqual(self.refused(psxgpu.play_size, b'PSXGPUC9').place, 7)
        self.assertEqual(calls, [])

    def test_no_memory(self):
        with mock.patch.object(library(), 'play_output', side_effect=lambda *given: self.without_memory(given[-1])):
            self.assertRaises(psxgpu.OutOfMemory, psxgpu.play, STATUS)
            self.assertRaises(psxgpu.OutOfMemory, psxgpu.play_to, STATUS, io.BytesIO())

    @staticmethod
    def without_memory(ended):
        ended.code = NO_MEMORY
        return NO_MEMORY


class Handles(unittest.TestCase):
    """The calls themselves, as a program in C could make them."""

    def setUp(self):
        self.library, self.held, self.ended = library(), Output(), Ended()
        self.addCleanup(self.library.output_free, self.held)

    def play(self, mode=0, data=STATUS):
        return self.library.play_output(mode, 0, data, len(data), self.held, self.ended)

    def copied(self, offset, room):
        """The bytes from an offset on. Those after them keep their mark."""
        out = ctypes.create_string_buffer(b'Z' * (room + 1))
        count = self.library.output_copy(self.held, offset, out, room)
        self.assertEqual(out.raw[count:-1], b'Z' * (room + 1 - count))
        return out.raw[:count]

    def test_pieces(self):
        self.assertEqual((self.play(), self.ended.code, self.ended.written), (0, 0, len(LINES)))
        for offset in (0, 1, 9, len(LINES) - 1, len(LINES), len(LINES) + 1, 2 ** 64 - 1):
            for room in (0, 1, 8, len(LINES), len(LINES) + 5):
                self.assertEqual(self.copied(offset, room), LINES[offset:][:room], (offset, room))

    def test_open(self):
        """A handle with an output is refused and keeps it. After it is freed, it takes another."""
        self.play()
        self.assertEqual(self.play(1), OPEN)
        self.assertEqual((self.ended.code, self.ended.written, self.copied(0, 99)), (OPEN, 0, LINES))
        self.library.output_free(self.held)
        self.assertEqual((self.held.at, self.held.open, self.copied(0, 99)), (None, 0, b''))
        self.assertEqual((self.play(0, STATUS[:-4]), self.copied(0, 99)), (3, LINES[:27]))

    def test_none(self):
        """Without an output there is nothing to copy or to free. An unknown mode makes none."""
        self.assertEqual((self.copied(0, 9), self.copied(9, 9)), (b'', b''))
        self.library.output_free(self.held)
        for call in (self.play, lambda mode: self.library.play_size(mode, 0, STATUS, len(STATUS), self.ended)):
            self.assertEqual((call(10), call(2 ** 32 - 1), self.ended.code, self.ended.written), (16, 16, BAD_MODE, 0))
        self.assertEqual((self.held.at, self.held.open), (None, 0))


if __name__ == '__main__':
    unittest.main()
