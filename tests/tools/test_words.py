"""The words of packets and registers, and what does not fit their fields."""
import unittest

from psxgpu import capture as c


class Packets(unittest.TestCase):
    def test_packets(self):
        self.assertEqual(c.fill(0x0000FF, 16, 1, 1024, 511), [0x020000FF, 0x10010, 0x01FF03FF])
        self.assertEqual(c.polygon([(0, 0), (8, 0), (0, 8)], 0xFFFFFF), [0x20FFFFFF, 0, 8, 0x80000])
        self.assertEqual(c.polygon([(-1, 0), (8, 0), (0, 8), (8, 8)], [1, 2, 3, 4], semi=True),
                         [0x3A000001, 0x7FF, 2, 8, 3, 0x80000, 4, 0x80008])
        self.assertEqual(c.polygon([(0, 0), (1, 0), (0, 1)], 0x808080, texture=[(1, 2), (3, 4), (5, 6)], palette=0xAAAA,
                                   page=0xBBBB, raw=True),
                         [0x25808080, 0, 0xAAAA0201, 1, 0xBBBB0403, 0x10000, 0x0605])
        self.assertEqual(c.line([(0, 0), (2, 0), (2, 2)], 0xFF), [0x480000FF, 0, 2, 0x20002, 0x50005000])
        self.assertEqual(c.line([(0, 0), (2, 0)], [1, 2]), [0x50000001, 0, 2, 2])
        self.assertEqual(c.rectangle(0xFF, 1, 2, 8, 8, texture=(3, 4), palette=5), [0x740000FF, 0x20001, 0x50403])
        self.assertEqual(c.rectangle(0xFF, 1, 2, 8, 9, semi=True), [0x620000FF, 0x20001, 0x90008])
        self.assertEqual(c.load(0, 0, 3, 1, [1, 2, 3]), [0xA0000000, 0, 0x10003, 0x20001, 3])
        self.assertEqual(c.copy(1, 2, 3, 4, 1024, 512), [0x80000000, 0x20001, 0x40003, 0x02000400])
        self.assertEqual(c.texture_page(640, 768, 1, blend=2), 0x8DA)
        self.assertEqual(c.clut(16, 480), 0x7801)

    def test_registers(self):
        self.assertEqual(c.drawing_area(0, 0, 1023, 511), [0xE3000000, 0xE407FFFF])
        self.assertEqual(c.drawing_offset(-1, -1), [0xE53FFFFF])
        self.assertEqual(c.draw_mode(0x1F, dither=True, flip_y=True), [0xE100221F])
        self.assertEqual(c.screen(0, 0, 320, 240), [0x08000001, 0x06C00200, 0x07040010, 0x05000000, 0x03000000])

    def test_width_368(self):
        """7 cycles a pixel: 200h + 368 * 7 = C10h, and bit 6 of the mode."""
        self.assertEqual(c.screen(0, 0, 368, 240)[:2], [0x08000040, 0x06C10200])

    def test_lengths(self):
        corners = [(0, 0), (1, 0), (0, 1), (1, 1)]
        lengths = [len(c.polygon(corners[:n], [1] * n if is_shaded else 0, texture and texture[:n]))
                   for is_shaded in (False, True) for texture in (None, corners) for n in (3, 4)]
        self.assertEqual(lengths, [4, 5, 7, 9, 6, 8, 9, 12])


class Fields(unittest.TestCase):
    def refused(self, text, function, *numbers, **named):
        self.assertRaisesRegex(ValueError, text, function, *numbers, **named)

    def test_colors_and_places(self):
        self.refused('fill color', c.fill, 0x1000000, 0, 0, 16, 16)
        self.refused('fill height', c.fill, 0, 0, 0, 16, 512)
        self.refused('copy target x', c.copy, 0, 0, 1024, 0, 1, 1)
        self.refused('store width', c.store, 0, 0, 1025, 1)
        self.refused('load cells', c.load, 0, 0, 2, 2, [1, 2, 3])
        self.refused('load cells', c.load, 0, 0, 1, 1, [65536])
        self.refused('vertex x', c.rectangle, 0, 1024, 0, 1, 1)
        self.refused('rectangle width', c.rectangle, 0, 0, 0, 1024, 1)

    def test_polygons_and_lines(self):
        corners = [(0, 0), (1, 0), (0, 1), (1, 1), (2, 2)]
        self.refused('polygon vertices', c.polygon, corners)
        self.refused('polygon vertices', c.polygon, corners[:2])
        self.refused('polygon color', c.polygon, corners[:3], [1, 2])
        self.refused('polygon texture', c.polygon, corners[:3], texture=corners[:2])
        self.refused('texcoord u', c.polygon, corners[:3], texture=[(300, 0)] * 3)
        self.refused('texcoord attribute', c.polygon, corners[:3], texture=corners[:3], page=65536)
        self.refused('line points', c.line, corners[:1])
        self.refused('vertex y', c.line, [(0, 0), (0, -1025)])

    def test_registers(self):
        self.refused('drawing_area x2', c.drawing_area, 0, 0, 2000, 239)
        self.refused('drawing_offset y', c.drawing_offset, 0, 1024)
        self.refused('texture_window mask_x', c.texture_window, 32, 0, 0, 0)
        self.refused('draw_mode page', c.draw_mode, 0x200)
        self.refused('palette x', c.clut, 8, 0)
        self.refused('page y', c.texture_page, 0, 100, 0)
        self.refused('screen width', c.screen, 0, 0, 300, 240)
        self.refused('screen height', c.screen, 0, 0, 320, 257)
        self.refused('display_mode', c.display_mode, 256)
        self.refused('dma_direction', c.dma_direction, 4)
