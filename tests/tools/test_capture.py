"""Captures that are written and taken apart again."""
import struct
import unittest

from psxgpu import capture as c


class Captures(unittest.TestCase):
    def test_status_word(self):
        self.assertEqual(c.Capture().stat().bytes().hex(), '50535847505543310100000500000000')

    def test_every_record(self):
        capture = c.Capture(3)
        capture.ram(0x1000, 1, 2).gp0([3, 4], 5).gp1(6, 7).read(262145).stat().dma(6, 8, 9, 10).begin(11, 12, 13)
        capture.turn(2).skip()
        version, found = c.records(capture.bytes())
        self.assertEqual(version, 3)
        self.assertEqual(found, [(1, 2, [0x1000, 1, 2]), (2, 3, [3, 4, 5]), (3, 1, [6]), (3, 1, [7]), (4, 262144, []),
                                 (4, 1, []), (5, 1, []), (6, 6, [8, 9, 10]), (7, 2, [11, 12, 13]), (8, 2, []),
                                 (9, 1, [])])

    def test_refusals(self):
        self.assertRaises(ValueError, c.Capture().turn)
        self.assertRaises(ValueError, c.Capture().ram, 2, 0)
        self.assertRaises(ValueError, c.Capture().ram, 0x1FFFFC, 0, 0)
        self.assertRaises(ValueError, c.Capture().dma, 3, 0, 0, 0)
        self.assertRaises(ValueError, c.Capture().record, c.GP0, 0)
        self.assertRaisesRegex(ValueError, 'Gp0 word', c.Capture().gp0, 1 << 32)
        self.assertRaisesRegex(ValueError, 'Gp1 word', c.Capture().gp1, -1)
        self.assertRaisesRegex(ValueError, 'Dma word', c.Capture().dma, 2, 0, 0, 1 << 32)

    def test_ordering_table(self):
        capture = c.Capture()
        table = c.OrderingTable(capture, table=0x1000, entries=4, packets=0x2000)
        table.clear()
        table.add(1, [0xAA])
        table.add(1, [0xBB, 0xCC])
        table.draw()
        self.assertEqual(c.records(capture.bytes())[1],
                         [(6, 6, [0x100C, 4, c.CLEAR_TABLE]),
                          (1, 2, [0x2000, 0x01001000, 0xAA]), (1, 1, [0x1004, 0x2000]),
                          (1, 3, [0x2008, 0x02002000, 0xBB, 0xCC]), (1, 1, [0x1004, 0x2008]),
                          (6, 2, [0x100C, 0, c.LIST])])


class StartFrom(unittest.TestCase):
    """Loads of 512 by 256 cover video memory, each with its own cells."""

    def loads(self, version, rows):
        cells = struct.pack('<%dH' % (1024 * rows), *(7 * i & 0xFFFF for i in range(1024 * rows)))
        capture = c.Capture(version).start_from(cells, settings=[1, 2, 3, 4, 5, 3], display=[0x08000001])
        found = c.records(capture.bytes())[1]
        self.assertEqual(found[0], (2, 1, [0xE6000000]))
        self.assertEqual(found[-2:], [(2, 6, [0xE1000001, 0xE2000002, 0xE3000003, 0xE4000004, 0xE5000005, 0xE6000003]),
                                      (3, 1, [0x08000001])])
        loads = [words for _, _, words in found[1:-2]]
        for load in loads:
            self.assertEqual((load[0], load[2], len(load)), (0xA0000000, 0x01000200, 3 + 65536))
            x, y = load[1] & 0xFFFF, load[1] >> 16
            for row in (0, 255):
                left = 7 * (1024 * (y + row) + x)
                self.assertEqual(load[3 + 256 * row], left & 0xFFFF | (left + 7 & 0xFFFF) << 16)
        return [load[1] for load in loads]

    def test_short(self):
        self.assertEqual(self.loads(1, 512), [0, 0x200, 0x1000000, 0x1000200])

    def test_tall(self):
        self.assertEqual(self.loads(3, 1024), [y << 16 | x for y in (0, 256, 512, 768) for x in (0, 512)])

    def test_wrong_length(self):
        self.assertRaisesRegex(ValueError, 'dump', c.Capture(3).start_from, bytes(1 << 20))
        self.assertRaisesRegex(ValueError, 'setting', c.Capture().start_from, bytes(1 << 20), [1 << 24])
