"""Reductions with psxgpu_tool and wrong players that are functions of ours: pairs, and loads and copies that shrink."""
import random
import unittest

from psxgpu import capture as c
from psxgpu.command import ToolError
from psxgpu.packets.generated import AREA, background
from psxgpu.packets.grammar import COPY, LOAD, POLYGON
from psxgpu.players.named import player_of
from psxgpu.reduce.batches import BatchProber
from psxgpu.reduce.cost import bits
from psxgpu.reduce.faults import DumpsDiffer
from psxgpu.reduce.features import FEATURES, active, stripped
from psxgpu.reduce.job import Job, Wanted
from psxgpu.reduce.layout import fields_of
from psxgpu.reduce.report import report_lines
from psxgpu.reduce.units import Unit, capture_of
from tests import support
from tests.tools.wrong_players import Wrong, is_textured, under

SHADED_QUAD = (0x3E808080, 0, 0x20010000, 0x404040, 8, 0x010A0008, 0x404040, 0x80000, 0x0800, 0x404040, 0x80008, 0x0808)


def two_faults(name, words, registers):
    """Draws raw textured polygons as those with a factor, and polygons under dither without it."""
    if name == POLYGON and words[0] >> 24 & 0x11 == 0x10:
        return under(0xE1, registers[0xE1] & ~0x200, words, registers)
    return [words[0] & ~0x1000000, *words[1:]] if name == POLYGON and is_textured(name, words) else words


def texel(name, words, registers):
    """Takes the data word 12345678h of a load for 0."""
    return [*words[:3], *(0 if word == 0x12345678 else word for word in words[3:])] if name == LOAD else words


def unnamed(name, words, registers):
    """Drops the first data word of loads with another opcode than A0h."""
    is_other = name == LOAD and words[0] >> 24 != 0xA0 and len(words) > 3
    return [*words[:3], 0, *words[4:]] if is_other else words


def far_copies(name, words, registers):
    """Copies from the row above, if the target is in the lower half."""
    is_far = name == COPY and words[2] >> 16 & 0x100
    return [words[0], (words[1] - 0x10000) & 0x1FF03FF, *words[2:]] if is_far else words


class Parts(unittest.TestCase):
    def test_features(self):
        """Each feature that a packet has is taken away, and a capture without it is another one."""
        packets = ((0xE1003200,), (0xE6000003,), SHADED_QUAD)
        found = active(packets)
        self.assertTrue({'dither', 'x-flip', 'y-flip', 'shades', 'texture', 'semi-transparency', 'quad', 'forced-mask',
                         'tested-mask'} <= set(found))
        settings = [Unit('environment', packet) for packet in packets[:2]]
        data = capture_of([*settings, Unit(POLYGON, SHADED_QUAD)], False)
        for feature in found:
            plain = [FEATURES[feature](packet) for packet in packets]
            self.assertNotIn(feature, active(plain))
            self.assertNotEqual(stripped(feature, data), data)

    def test_large_loads(self):
        """The bits of a load are counted, and its numbers are its corner alone."""
        unit = Unit(LOAD, (0xA0000000, 0x00010002, 0x00020002, 0xFFFFFFFF, 0x80000001))
        self.assertEqual(bits(unit, False), 2 + 2 + 2 + 32 + 2)
        self.assertEqual({at for at, _, _ in fields_of(unit)}, {1})


@support.needs_player
class Pairs(support.InFolder):
    def reduced(self, capture, fault, **wanted):
        path = self.write('a.capture', capture.bytes())
        with Job(player_of(support.PLAYER), Wrong(fault), Wanted(DumpsDiffer(), [], **wanted), jobs=1) as job:
            self.assertIsInstance(job.prober, BatchProber)
            found = job.result(path, 'a.capture')
        self.assertTrue(found)
        return found

    def scene(self):
        return c.Capture().gp0(background(random.Random(1)), AREA)

    def test_pair(self):
        """The packet shows two faults. Without a pair the smaller one is found, with `dither` that of dither."""
        page, colors = c.texture_page(512, 0, 2), [0x123456, 0x808080, 0x302010]
        triangle = c.polygon([(10, 10), (60, 10), (10, 60)], colors, texture=[(0, 0), (50, 0), (0, 50)], page=page)
        capture = self.scene().gp0(c.draw_mode(page, dither=True), triangle)
        plain = [word for unit in self.reduced(capture, two_faults).units for word in unit.words]
        found = self.reduced(capture, two_faults, without=['dither'])
        self.assertTrue([word for unit in found.units for word in unit.words if word >> 24 == 0xE1 and word & 0x200])
        self.assertTrue(plain)
        self.assertLessEqual(found.words, 16, report_lines(found))

    def test_also_without(self):
        """A difference that has nothing to do with a feature is not found as a pair."""
        capture = self.scene().gp0(c.draw_mode(dither=True), c.load(3, 3, 2, 1, [0x5678, 0x1234]))
        with self.assertRaisesRegex(ToolError, 'or it also differs without dither'):
            self.reduced(capture, texel, without=['dither'])

    def test_unfinished_load(self):
        """One texel of a load of 512 by 256 that is not whole."""
        words = [0xA0000000, 0, 256 << 16 | 512, *[0x00010001] * 33300, 0x12345678, *[0x00010001] * 73]
        found = self.reduced(self.scene().gp0(words), texel)
        self.assertLessEqual(found.words, 6, report_lines(found))

    def test_unnamed_load(self):
        capture = self.scene().gp0([0xA7000000, *c.load(100, 100, 16, 16, range(1, 257))[1:]])
        found = self.reduced(capture, unnamed)
        self.assertLessEqual(found.words, 4, report_lines(found))
        self.assertNotEqual(found.units[-1].words[0], 0xA0000000)

    def test_copy(self):
        """Source and loads move together: a copy of one cell, and one cell to copy."""
        found = self.reduced(self.scene().gp0(c.copy(700, 130, 300, 300, 90, 70)), far_copies)
        self.assertLessEqual(found.words, 8, report_lines(found))
