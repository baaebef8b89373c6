"""Tests of psxgpu.py: what it refuses, and the machine's ports"""
import copy
import os
import threading
import unittest

ROOT = os.path.dirname(os.path.dirname(os.path.dirname(os.path.abspath(__file__))))

import psxgpu
from psxgpu.capture import fill, load, screen, store
from tests.library.support import needs_library

setUpModule = needs_library

AFTER_RESET = 0x14802000


class Arguments(unittest.TestCase):
    """What cannot be meant is refused before the library hears of it."""

    def test_types_and_ranges(self):
        machine = psxgpu.Machine()
        before = machine.vram()
        for wrong in ('red', 1.5, [1, 'x'], [1.5], None):
            self.assertRaises(TypeError, machine.gp0, wrong)
        for wrong in (-1, 1 << 32, [0, 1 << 32], [-1], b'abc'):
            self.assertRaises(ValueError, machine.gp0, wrong)
        for wrong in (-1, 1 << 32):
            self.assertRaises(ValueError, machine.gp1, wrong)
        self.assertRaises(TypeError, machine.gp1, '1')
        for column, row, text in ((1024, 0, 'column 1024 is not in 0 to 1023'), (-1, 0, 'column -1 is not'),
                                  (0, 1024, 'row 1024 is not'), (0, 512, 'row 512 is not in 0 to 511')):
            self.assertRaisesRegex(ValueError, text, machine.cell, column, row)
        for start, words in ((2, [0]), (0x1FFFFC, [0, 0]), (0x200000, [0]), (-4, [0])):
            self.assertRaises(ValueError, machine.ram, start, words)
        self.assertRaises(ValueError, machine.dma, 3, 0, 0, 0)
        self.assertRaises(ValueError, machine.dma, 2, 0, 0, 1 << 32)
        self.assertRaises(TypeError, machine.load, 5)
        self.assertEqual(machine.vram(), before)

    def test_play(self):
        self.assertRaises(ValueError, psxgpu.play, b'', 'movie')
        self.assertRaises(ValueError, psxgpu.play, b'', 'vram', cell=(0, 0))
        self.assertRaises(ValueError, psxgpu.play, b'', 'pixel')
        self.assertRaises(ValueError, psxgpu.play, b'', 'pixel', cell=(1024, 0))
        self.assertRaises(TypeError, psxgpu.play, 5)
        self.assertRaises(FileNotFoundError, psxgpu.play, os.path.join(ROOT, 'no such file'))

    def test_words_of_every_kind(self):
        packet = fill(0x0000FF, 0, 0, 16, 16)
        kinds = packet, tuple(packet), iter(packet), b''.join(word.to_bytes(4, 'little') for word in packet)
        for words in kinds:
            with psxgpu.Machine() as machine:
                machine.gp0(words)
                self.assertEqual(machine.cell(15, 15), 31)
        with psxgpu.Machine() as machine:
            machine.gp0([])
            for word in packet:
                machine.gp0(word)
            self.assertEqual(machine.cell(15, 15), 31)


class Names(unittest.TestCase):
    def test_package(self):
        """The package has the names of `psxgpu.machine`, and no others; each has a text."""
        from psxgpu import machine
        self.assertEqual(set(psxgpu.__all__), {*machine.__all__, '__version__'})
        self.assertEqual(dir(psxgpu), sorted(psxgpu.__all__))
        for name in machine.__all__:
            self.assertTrue(getattr(psxgpu, name).__doc__, name)
        self.assertRaises(AttributeError, getattr, psxgpu, 'words_of')

    def test_library(self):
        """The library says its version and the texts of its codes."""
        library = psxgpu.library()
        self.assertEqual(library.version(), psxgpu.__version__)
        self.assertIn('libpsxgpu %s: ' % psxgpu.__version__, repr(library))
        self.assertEqual((library.text(17), library.text(9), library.text(99)),
                         ('no such cell', 'list-loop', 'unknown code'))

    def test_texts(self):
        """What a session shows of each object is short."""
        machine = psxgpu.Machine()
        self.assertEqual(repr(machine), '<psxgpu.Machine: video memory of 512 rows>')
        machine.set_tall()
        self.assertEqual((repr(machine), machine.rows), ('<psxgpu.Machine: video memory of 1024 rows>', 1024))
        machine.gp0([0, 0])
        snapshot = machine.save()
        self.assertEqual(repr(snapshot), '<psxgpu.Snapshot: event 2, %d bytes>' % len(snapshot))
        machine.close()
        self.assertEqual(repr(machine), '<psxgpu.Machine: closed>')
        self.assertEqual(repr(psxgpu.Recording(b'PSXGPUC1')), '<psxgpu.Recording: the recording, 8 bytes>')


class Machines(unittest.TestCase):
    """The rules of docs/MACHINE.md and docs/CAPTURE.md."""

    def setUp(self):
        self.machine = psxgpu.Machine()
        self.addCleanup(self.machine.close)

    def test_first_state(self):
        self.assertEqual(self.machine.status(), AFTER_RESET)
        self.assertEqual(self.machine.vram(), bytes(1024 * 512 * 2))
        self.assertEqual(self.machine.read(), 0)

    def test_load_and_store(self):
        self.machine.gp0(load(4, 2, 3, 1, [0x1111, 0x2222, 0x3333]))
        self.assertEqual([self.machine.cell(x, 2) for x in range(3, 8)], [0, 0x1111, 0x2222, 0x3333, 0])
        self.machine.gp0(store(4, 2, 3, 1))
        self.assertEqual([self.machine.read() for _ in range(3)], [0x22221111, 0x3333, 0x3333])

    def test_picture(self):
        for word in screen(0, 0, 320, 240):
            self.machine.gp1(word)
        self.assertEqual(self.machine.shape(), (320, 240))
        self.machine.gp0(fill(0x0000FF, 0, 0, 16, 1))
        pixels = bytes([255, 0, 0]) * 16 + bytes(3 * (320 * 240 - 16))
        self.assertEqual(self.machine.picture(), b'P6\n320 240\n255\n' + pixels)
        rgba = self.machine.picture_rgba()
        self.assertEqual(bytes(byte for k, byte in enumerate(rgba) if k % 4 != 3), pixels)
        self.assertEqual(set(rgba[3::4]), {255})

    def test_no_picture(self):
        self.machine.gp1(0x06000000)
        for look in (self.machine.shape, self.machine.picture, self.machine.picture_rgba):
            with self.assertRaises(psxgpu.Refused) as caught:
                look()
            self.assertEqual(str(caught.exception), 'psxgpu: no-picture')

    def test_rows(self):
        self.assertRaises(ValueError, self.machine.cell, 0, 512)
        self.machine.set_tall()
        self.assertEqual(self.machine.cell(0, 512), 0)
        self.assertEqual(self.machine.vram(), bytes(1024 * 1024 * 2))
        self.assertEqual(len(psxgpu.Machine(tall=True).vram()), 1024 * 1024 * 2)

    def test_clear(self):
        self.machine.gp0(fill(0x0000FF, 0, 0, 16, 16))
        self.machine.clear()
        self.assertEqual(self.machine.vram(), bytes(1024 * 512 * 2))

    def test_closed(self):
        self.machine.close()
        self.machine.close()
        with self.assertRaises(psxgpu.Refused) as caught:
            self.machine.status()
        self.assertEqual(str(caught.exception), 'psxgpu: the machine is closed')
        self.assertRaises(TypeError, copy.copy, self.machine)

    def test_registers(self):
        self.machine.gp0([0xE1000555, 0xE2000001, 0xE3000002, 0xE4000003, 0xE5000004, 0xE6000001, 0x1F000000])
        self.machine.gp1(0x04000002)
        found = self.machine.registers()
        self.assertEqual(found[:6], (0x555, 1, 2, 3, 4, 1))
        self.assertEqual((found.flags & 1, found.dma_direction), (1, 2))

    def test_array(self):
        try:
            import numpy
        except ImportError:
            self.assertRaises(psxgpu.Missing, self.machine.vram_array)
            self.skipTest('no numpy')
        self.machine.gp0(fill(0x0000FF, 16, 1, 16, 2))
        cells = self.machine.vram_array()
        self.assertEqual((cells.shape, int(cells.sum()), int(cells[2, 31])), ((512, 1024), 32 * 31, 31))
        self.assertEqual(cells.dtype, numpy.dtype('<u2'))

    def test_threads_share_a_machine(self):
        packets = [fill(0x0000FF, 16 * k, 0, 16, 16) for k in range(8)]
        threads = [threading.Thread(target=self.machine.gp0, args=(packet,)) for packet in packets]
        for thread in threads:
            thread.start()
        for thread in threads:
            thread.join()
        self.assertEqual({self.machine.cell(x, 5) for x in range(128)}, {31})
