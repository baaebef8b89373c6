"""Tests of psxgpu.py: main memory, DMA, snapshots and notes"""
import os
import tempfile
import unittest

import psxgpu
from psxgpu.capture import BLOCKS_IN, BLOCKS_OUT, LIST, copy, drawing_area, fill, load, rectangle, store
from tests.library.support import needs_library

setUpModule = needs_library


class Transfers(unittest.TestCase):
    """Main memory and DMA."""

    def setUp(self):
        self.machine = psxgpu.Machine()
        self.machine.gp0(drawing_area(0, 0, 319, 239))
        self.addCleanup(self.machine.close)

    def refused(self, call, *arguments):
        before = self.machine.vram(), self.machine.registers()
        with self.assertRaises(psxgpu.Refused) as caught:
            call(*arguments)
        self.assertEqual((self.machine.vram(), self.machine.registers()), before)
        return str(caught.exception)

    def test_list(self):
        self.machine.ram(0x1000, [0x03FFFFFF] + rectangle(0x0000FF, 0, 0, 32, 32))
        self.machine.dma(2, 0x1000, 0, LIST)
        self.assertEqual(self.machine.cell(31, 31), 31)

    def test_turns(self):
        self.machine.ram(0x1000, [0x03001100] + rectangle(0x0000FF, 0, 0, 8, 8))
        self.machine.ram(0x1100, [0x03FFFFFF] + rectangle(0x00FF00, 8, 0, 8, 8))
        self.machine.begin(0x1000, 0, LIST)
        self.assertEqual(self.machine.cell(0, 0), 0)
        self.machine.turn()
        self.assertEqual((self.machine.cell(0, 0), self.machine.cell(8, 0)), (31, 0))
        self.machine.turn()
        self.machine.turn()
        self.assertEqual((self.machine.cell(0, 0), self.machine.cell(8, 0)), (31, 31 << 5))

    def test_reads_into_main_memory(self):
        self.machine.gp0(load(0, 0, 2, 1, [0x1111, 0x2222]) + store(0, 0, 2, 1))
        self.machine.dma(2, 0x3000, 0x00010001, BLOCKS_OUT)
        self.machine.gp0(load(0, 8, 2, 1, [0, 0])[:3])
        self.machine.dma(2, 0x3000, 0x00010001, BLOCKS_IN)
        self.assertEqual((self.machine.cell(0, 8), self.machine.cell(1, 8)), (0x1111, 0x2222))

    def test_faults_change_nothing(self):
        # Two words for E3h and E4h and one for each word of main memory were events.
        self.machine.ram(0x1000, [0x00001000])
        self.assertEqual(self.refused(self.machine.dma, 2, 0x1000, 0, LIST), 'psxgpu: list-loop at event 4 node 001000')
        self.assertEqual(self.refused(self.machine.dma, 2, 0, 0, 0x01000601), 'psxgpu: bad-dma at event 4')
        self.assertEqual(self.refused(self.machine.begin, 0, 0, 0x01000400), 'psxgpu: bad-dma at event 4')
        self.assertEqual(self.refused(self.machine.dma, 2, 0, 9 << 16 | 0xFFFF, BLOCKS_IN),
                         'psxgpu: dma-too-long at event 4 words 589815')


class Snapshots(unittest.TestCase):
    def test_a_step_back(self):
        machine = psxgpu.Machine()
        machine.gp0(fill(0x0000FF, 0, 0, 16, 16) + [0x02000000, 0])
        before, seen = machine.save(), machine.vram()
        self.assertEqual((before.rows, before.events, before[:8]), (512, 5, b'PSXGPUS1'))
        # The fill is open: its last word completes it after the step back as well.
        machine.gp0(0x00100010)
        self.assertEqual(machine.cell(0, 0), 0)
        machine.load(before)
        self.assertEqual((machine.vram(), machine.save()), (seen, before))
        machine.gp0(0x00100010)
        self.assertEqual(machine.cell(0, 0), 0)

    def test_into_another_machine(self):
        machine, other = psxgpu.Machine(tall=True), psxgpu.Machine()
        machine.gp0(fill(0x0000FF, 0, 600, 16, 16))
        other.load(machine.save())
        self.assertEqual(other.cell(15, 615), 31)
        self.assertEqual(other.save(), machine.save())

    def test_files(self):
        machine = psxgpu.Machine()
        machine.gp0(copy(0, 0, 64, 64, 8, 8))
        with tempfile.TemporaryDirectory() as folder:
            path = os.path.join(folder, 'a.snapshot')
            machine.save().write(path)
            self.assertEqual(psxgpu.Snapshot.read(path), machine.save())
            self.assertEqual(psxgpu.play(path, 'play'), b'status 14802000\n')

    def test_refusals_change_nothing(self):
        machine = psxgpu.Machine()
        machine.gp0(fill(0x0000FF, 0, 0, 16, 16))
        before = machine.save()
        wrong_height = before[:8] + b'\1' + before[9:]
        for data, text in ((b'PSXGPUS9' + before[8:], 'not-capture at event 1 byte 7'),
                           (before[:100], 'truncated at event 1 byte 100'),
                           (wrong_height, 'bad-snapshot at event 1 byte 8 word 00000201')):
            with self.assertRaises(psxgpu.Refused) as caught:
                machine.load(data)
            self.assertEqual(str(caught.exception), 'psxgpu: ' + text)
            self.assertEqual(machine.save(), before)


class Notes(unittest.TestCase):
    def test_events_and_areas(self):
        machine = psxgpu.Machine()
        found = machine.gp0_notes(drawing_area(0, 0, 319, 239) + rectangle(0x0000FF, 8, 8, 4, 2))
        self.assertEqual(found[-1], psxgpu.Note(5, 3, 0x600000FF, (8, 8, 11, 9), 4))
        self.assertEqual([(note.event, note.class_number, note.area) for note in found[:2]],
                         [(1, 7, None), (2, 7, None)])
        self.assertEqual(machine.gp0_notes([0x60000000]), [])
