"""The smallest capture on which two players differ. Both are functions of ours: small_player.py has the faults."""
from __future__ import annotations

import io
import re
from typing import List, Optional, Tuple

from tests import support
from psxgpu import capture as c
from psxgpu.packets.known import CLASSES
from psxgpu.players.beginning import beginning, first_bytes
from psxgpu.reduce.faults import BreaksDown, DumpsDiffer, Fault, WordsDiffer
from psxgpu.reduce.job import Job, Wanted
from psxgpu.reduce.report import Reduced, report_lines
from psxgpu.stream import GP0, Stream
from tests.tools.small_player import SmallPlayer

WHOLE = 0xE407FFFF


def scene(version: int = 1) -> c.Capture:
    """Textures, palettes, and packets that no fault touches."""
    out = c.Capture(version)
    out.gp0(c.fill(0x402010, 0, 0, 64, 32), c.drawing_area(0, 0, 319, 239), c.mask_setting())
    out.gp0(c.load(640, 0, 16, 16, range(1, 257)), c.load(0, 300, 16, 1, range(100, 116)))
    out.gp0(c.load(16, 300, 16, 1, range(200, 216)))
    out.gp0(c.draw_mode(c.texture_page(640, 0, 0, 3)))
    for k in range(20):
        out.gp0(c.rectangle(0x0000F8 + k, 8 * k, 70, 7, 5)).gp1(0x3F000000 + k)
    return out


def sprite(x: int, palette: Tuple[int, int], **settings: bool) -> List[int]:
    return c.rectangle(0, x, 20, 16, 16, texture=(8, 4), palette=c.clut(*palette), raw=True, **settings)


class Reducing(support.InFolder):
    """A reduction by two small players."""

    def reduce(self, capture: c.Capture, fault: str, what: Optional[Fault] = None, **wanted: object) -> Reduced:
        path = self.write('a.capture', capture.bytes())
        settings = dict(dict(fault=what or DumpsDiffer(), ignore=[]), **wanted)
        with Job(SmallPlayer(), SmallPlayer(fault), Wanted(**settings), jobs=1) as job:     # type: ignore[arg-type]
            found = job.result(path, 'a.capture')
        self.found = found
        assert found
        return found

    def words(self, found: Reduced) -> List[int]:
        stream = Stream(io.BytesIO(found.data), 'reduced')
        return [word for kind, _, words in stream if kind == GP0 for word in words]



class Faults(Reducing):
    def test_blending(self) -> None:
        """B+F/4 drawn as B+F: what is left is the area's end, the mode, and a rectangle of one cell."""
        capture = scene().gp0(c.rectangle(0x80FF40, 30, 20, 40, 30, semi=True)).gp0(c.rectangle(1, 0, 100, 30, 20))
        found = self.reduce(capture, 'blend')
        words = self.words(found)
        self.assertEqual(len(words), 4, report_lines(found))
        self.assertEqual(set(words[:2]), {WHOLE, 0xE1000060})
        self.assertEqual(words[2] >> 24, 0x6A)      # one cell, semi-transparent
        self.assertEqual(words[3], 0)
        self.assertIn('cells that differ: 1', found.differs)

    def test_palette_cache(self) -> None:
        """A palette that changes between two draws of the same place: no state has it, so both draws stay."""
        capture = scene().gp0(sprite(40, (0, 300))).gp0(c.load(0, 300, 16, 1, range(900, 916)))
        capture.gp0(sprite(80, (0, 300))).gp0(c.rectangle(7, 0, 0, 2, 2))
        found = self.reduce(capture, 'cache')
        names = [unit.name for unit in found.units]
        self.assertEqual(names.count('rectangle'), 2, report_lines(found))
        self.assertEqual(names[-2:], ['load', 'rectangle'])
        self.assertLessEqual(found.words, 14, report_lines(found))

    def test_breaks_down(self) -> None:
        """The area's end stays, and the packet that ends the player."""
        found = self.reduce(scene().gp0(sprite(40, (0, 300))).gp0(c.fill(0, 0, 0, 16, 1)), 'dies', BreaksDown())
        self.assertLessEqual(found.words, 4, report_lines(found))
        self.assertEqual(found.units[-1].opcode & 0xE4, 0x64)
        self.assertEqual(found.differs, ['their player gives no dump: status 3, broken'])
        self.assertIsNone(found.dumps)

    def test_tall(self) -> None:
        """The same fault in rows from 512 on: a capture of version 3, whose area ends in row 1023."""
        capture = scene(3).gp0(c.drawing_area(0, 600, 319, 900)).gp0(c.rectangle(0x80FF40, 30, 620, 40, 30, semi=True))
        found = self.reduce(capture, 'blend')
        self.assertTrue(found.is_tall)
        self.assertEqual(found.data[:8], b'PSXGPUC3')
        self.assertIn(0xE40FFFFF, self.words(found))
        self.assertLessEqual(found.words, 5, report_lines(found))

    def test_size_with_its_load(self) -> None:
        """The last column of a texture is left out, and one texel there is not 0: size and load shrink together."""
        cells = [0x1000 if k % 16 == 15 else 0 for k in range(256)]
        capture = scene().gp0(c.load(640, 0, 16, 16, cells), c.load(0, 300, 16, 1, [0, 0x7FFF] + [0] * 14))
        capture.gp0(c.rectangle(0, 40, 20, 64, 16, texture=(0, 0), palette=c.clut(0, 300), raw=True))
        found = self.reduce(capture, 'column')
        width = found.units[-1].words[-1] & 0x3FF if not found.units[-1].opcode & 0x18 else 1
        self.assertLessEqual(width, 4, report_lines(found))
        self.assertLessEqual(found.words, 14, report_lines(found))

    def test_words(self) -> None:
        """The padding of an odd store: a store of one cell and one read."""
        capture = scene().gp0(c.store(0, 0, 2, 2)).read(2).gp0(c.store(3, 5, 5, 3)).read(8).stat()
        found = self.reduce(capture, 'padding', WordsDiffer())
        self.assertEqual([unit.name for unit in found.units], ['store', 'reads'], report_lines(found))
        self.assertEqual(self.words(found)[1:], [0, 0x00010001])
        self.assertEqual(found.differs, ['word 1: ours 00000000, theirs ffff0000'])

    def test_status(self) -> None:
        """A status bit: the setting that sets it and the read of the status."""
        capture = scene().stat().gp0(c.mask_setting(force=True, keep=True)).gp0(c.fill(0, 0, 0, 16, 1)).stat()
        found = self.reduce(capture, 'status', WordsDiffer())
        self.assertEqual(self.words(found)[-1], 0xE6000001)
        self.assertEqual(len(found.units), 2, report_lines(found))

    def test_what_is_said_meanwhile(self) -> None:
        """The share of the capture that is searched, and how many of the packets are left."""
        said: List[str] = []
        capture = scene().gp0(c.rectangle(0x80FF40, 30, 20, 40, 30, semi=True), [0] * 5000)
        path = self.write('a.capture', capture.bytes())
        with Job(SmallPlayer(), SmallPlayer('blend'), Wanted(DumpsDiffer(), []), jobs=1, tell=said.append) as job:
            job.result(path, 'a.capture')
        share = re.fullmatch(r'looking for the packet in (\d+) % of the capture', said[0])
        self.assertTrue(share and 0 < int(share[1]) < 100, said[0])
        numbers = [re.fullmatch(r'(\d+) of (\d+) packets, \d+ words, \d+ probes', line) for line in said[1:]]
        self.assertTrue(numbers and all(numbers), said)
        counts = [(int(found[1]), int(found[2])) for found in numbers if found]
        self.assertEqual({whole for _, whole in counts}, {counts[0][1]})
        self.assertTrue(all(0 < left <= whole for left, whole in counts), counts)

    def test_none(self) -> None:
        path = self.write('a.capture', scene().bytes())
        with Job(SmallPlayer(), SmallPlayer(), Wanted(DumpsDiffer(), [])) as job:
            self.assertIsNone(job.result(path, 'a'))

    def test_event(self) -> None:
        """The event of a packet, by itself: the first one that differs is another."""
        capture = scene().gp0(c.rectangle(0x80FF40, 30, 20, 40, 30, semi=True))
        events = sum(count if kind == GP0 else 1 for kind, count, _ in Stream(io.BytesIO(capture.bytes()), 'a'))
        capture.gp0(c.rectangle(0x80FF40, 90, 20, 16, 16, semi=True))
        found = self.reduce(capture, 'blend', event=events + 2, keep=True)
        self.assertIn('event %d ' % (events + 2), found.headline)

    @support.needs_player
    def test_ignore(self) -> None:
        """All that is red is wrong: a fill is found first, a rectangle if fills are ignored, and if both are, nothing."""
        found = self.reduce(scene(), 'red')
        self.assertEqual(found.units[-1].name, 'fill', report_lines(found))
        found = self.reduce(scene(), 'red', ignore=['fill'])
        names = [unit.name for unit in found.units]
        self.assertEqual((names[-1], names.count('fill')), ('rectangle', 0), report_lines(found))
        self.assertLessEqual(found.words, 5, report_lines(found))
        with Job(SmallPlayer(), SmallPlayer('red'), Wanted(DumpsDiffer(), ['fill', 'rectangle']), jobs=1) as job:
            self.assertIsNone(job.result(self.path('a.capture'), 'a.capture'))

    def test_no_known_class_comes_in(self) -> None:
        found = self.reduce(scene().gp0(c.rectangle(0x80FF40, 30, 20, 40, 30, semi=True)), 'blend')
        self.assertFalse(any('(%s)' % name in found.headline for name in CLASSES))


class Beginnings(support.InFolder):
    def beginnings(self, wanted: int) -> Tuple[List[int], bool]:
        """The sizes of the captures that are looked at until `wanted` events are there; whether the last is whole."""
        path, sizes = self.write('a.capture', c.Capture(2).gp0([0] * 90).skip(10).bytes()), []

        def events(part: str) -> int:
            with open(part, 'rb') as file:
                return sum(count for _, count, _ in Stream(file, part))

        def shows(part: str) -> bool:
            sizes.append(events(part))
            return sizes[-1] >= wanted

        with beginning(path, 'a', shows, 16) as (part, is_whole):
            if sizes[-1:] != [events(part)]:
                sizes.append(events(part))
            return sizes, is_whole

    def test_they_double(self) -> None:
        """16 events, 32, 64; the whole is not looked at before it is taken."""
        self.assertEqual(self.beginnings(20), ([16, 32], False))
        self.assertEqual(self.beginnings(90), ([16, 32, 64, 100], True))

    def test_version_1(self) -> None:
        """Reads whose words are not shown become reads."""
        path = self.write('a.capture', c.Capture(2).gp0([7]).skip(3).bytes())
        self.assertEqual(first_bytes(path, 'a', 3), c.Capture().gp0([7]).read(2).bytes())
