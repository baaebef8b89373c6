"""The viewer against the program, on the examples: python3 -m tests.viewer.test_viewer, after `make web`."""
import gzip
import hashlib
import random
import unittest

from tests.viewer.page import Page, examples, program

from psxgpu.capture import Capture
from tests.viewer.made import drawn_at_random, in_zstd, prefix


def sum_of(data):
    return hashlib.sha256(data).hexdigest()


class Viewer(unittest.TestCase):
    @classmethod
    def setUpClass(cls):
        cls.page = cls.enterClassContext(Page())
        cls.all = [*examples(), *(('random-%d' % seed, drawn_at_random(seed)) for seed in range(3))]

    def opened(self):
        """Each capture that the program does not refuse, open."""
        for name, data in self.all:
            refused = program('vram', data=data)[1]
            self.assertEqual(self.page.load(data, name), f'{name}: {refused}' if refused else True)
            if not refused:
                yield data

    def test_bytes_are_the_programs(self):
        for data in self.opened():
            self.page.evaluate('probe.app.seek(1e12)')
            self.assertEqual(self.page.ask('memory'), sum_of(program('vram', data=data)[0]))
            shot, refused = program('shot', data=data)
            self.assertEqual(self.page.ask('picture'), None if refused else sum_of(shot))
            self.assertEqual(self.page.ask('list'), program('list', data=data)[0].decode())
            self.assertEqual(self.page.ask('flat'), sum_of(program('flat', data=data)[0]))

    def test_steps_forth_and_back(self):
        for _ in self.opened():
            length = self.page.evaluate('probe.app.recording.length')
            places = range(0, length + 1, max(1, length // 20))
            there = [self.state(place) for place in places]
            back = [self.state(place) for place in reversed(places)]
            self.assertEqual(there, back[::-1])

    def state(self, place):
        self.page.evaluate('probe.app.seek(%d)' % place)
        return self.page.ask('state')

    def test_a_hundred_random_places(self):
        at = random.Random(7)
        data = drawn_at_random(11)
        self.assertEqual(self.page.load(data), True)
        count = self.page.evaluate('probe.app.recording.length')
        for _ in range(100):
            event = at.randrange(count + 1)
            dump = program('vram', data=prefix(data, event))[0]
            self.assertEqual(self.page.ask('memoryAtEvent', event), sum_of(dump), event)

    def test_fewer_states(self):
        data = drawn_at_random(12, 2000)
        self.assertEqual(self.page.load(data), True)
        count = self.page.evaluate('probe.app.recording.length')
        places = [count * k // 9 for k in range(10)]
        before = [self.state(place) for place in places]
        for _ in range(3):
            self.page.evaluate('probe.app.recording.keyframes.thin()')
            self.assertEqual([self.state(place) for place in reversed(places)], before[::-1])

    def test_history_is_that_of_pixel(self):
        at = random.Random(3)
        for data in self.opened():
            for x, y in [(at.randrange(400), at.randrange(300)) for _ in range(25)]:
                lines = program('pixel', str(x), str(y), data=data)[0].decode()
                self.assertEqual(self.page.ask('pixel', x, y), lines, (x, y))

    def test_history_is_that_of_prefixes(self):
        data = drawn_at_random(5, 40)
        self.assertEqual(self.page.load(data), True)
        count = self.page.evaluate('probe.app.recording.length')
        dumps = [program('vram', data=prefix(data, event))[0] for event in range(count + 1)]
        for x, y in [(10, 10), (100, 100), (200, 150), (300, 200), (64, 250)]:
            cells = [dump[2 * (1024 * y + x)] | dump[2 * (1024 * y + x) + 1] << 8 for dump in dumps]
            changes = ['%d %04x %04x' % (event, cells[event - 1], cells[event])
                       for event in range(1, count + 1) if cells[event - 1] != cells[event]]
            told = [line.split() for line in self.page.ask('pixel', x, y).splitlines()]
            self.assertEqual([' '.join((event, before, after)) for event, _, _, before, after in told], changes)

    def test_cut_files_are_the_programs(self):
        for data in self.opened():
            last = self.page.evaluate('probe.app.recording.eventAt(probe.app.recording.length)')
            for asked in sorted({2, last // 3, last // 2, last}):
                event, got = self.page.ask('cut', asked)
                self.assertEqual(got, sum_of(program('cut', str(event), data=data)[0]), event)

    def test_snapshots_go_on(self):
        for data in self.opened():
            last = self.page.evaluate('probe.app.recording.eventAt(probe.app.recording.length)')
            snapshot = program('cut', str(last // 3), data=data)[0]
            self.assertEqual(self.page.load(snapshot), True)
            self.assertEqual(self.page.ask('list'), program('list', data=snapshot)[0].decode())
            self.page.evaluate('probe.app.seek(1e12)')
            self.assertEqual(self.page.ask('memory'), sum_of(program('vram', data=snapshot)[0]))
            lines = program('pixel', '20', '20', data=snapshot)[0].decode()
            self.assertEqual(self.page.ask('pixel', 20, 20), lines)

    def test_fields_fit_the_areas(self):
        """What the fields say of a packet that is not cut is the area that the machine tells."""
        seen = 0
        for _ in self.opened():
            for told in self.page.ask('packets'):
                box, packet = self.box_of(told), told['packet']
                if box is None:
                    continue
                seen += 1
                self.assertEqual([told['area'][name] for name in ('x1', 'y1', 'x2', 'y2')], box, packet)
        self.assertGreater(seen, 150)

    def box_of(self, told):
        """The box that a packet's fields give, or None where it may be cut or refused."""
        packet, registers = told['packet'], told['registers']
        if 'vertices' not in packet:
            near, size = packet.get('to') or packet['from'], packet['size']
            return [near['x'], near['y'], near['x'] + size['w'] - 1, near['y'] + size['h'] - 1]
        if told['kind'] not in (1, 3) or len(packet['vertices']) == 4:
            return None
        signed = lambda value: (value & 0x7FF ^ 0x400) - 0x400
        dx, dy = signed(registers[4]), signed(registers[4] >> 11)
        xs, ys = ([vertex[name] for vertex in packet['vertices']] for name in 'xy')
        wide, high = (packet['size']['w'] - 1, packet['size']['h'] - 1) if told['kind'] == 3 else (0, 0)
        box = [min(xs) + dx, min(ys) + dy, max(xs) + dx + wide, max(ys) + dy + high]
        near, far = registers[2], registers[3]
        inside = (near & 1023) <= box[0] and (near >> 10) <= box[1] and box[2] <= (far & 1023) and box[3] <= (far >> 10)
        return box if inside else None

    def test_bad_files(self):
        data = dict(self.all)['textured-frame.capture']
        self.assertEqual(self.page.load(data, 'good'), True)
        before = self.page.ask('memory'), self.page.evaluate('probe.app.recording.name')
        bad = [b'', b'PSX', b'PSXGPUC9', b'PSXGPUX1' + bytes(4), b'\x89PNG\r\n\x1a\n' + bytes(99), data[:8],
               data[:1001], data[:-4], data[:200] + b'\0\0\0\x0b', b'PSXGPUC2' + bytes.fromhex('0100000102000000'),
               Capture(2).dma(2, 0, 0, 0x01000601).bytes(), Capture(2).dma(2, 0, 0, 0x01000200).bytes(),
               Capture(2).begin(0, 0, 0x01000400).bytes(), b'PSXGPUC1' + bytes.fromhex('01000007')]
        snapshot = program('cut', '9', data=data)[0]
        bad += [snapshot[:100], snapshot[:5000], snapshot[:8] + b'\1' + snapshot[9:], snapshot[:-2]]
        for file in bad:
            self.assertEqual(self.page.load(file, 'bad'), 'bad: ' + program('play', data=file)[1], file[:40])
            self.assertEqual((self.page.ask('memory'), self.page.evaluate('probe.app.recording.name')), before)

    def test_packed_files(self):
        data = dict(self.all)['textured-frame.capture']
        self.assertEqual(self.page.load(gzip.compress(data)), True)
        self.page.evaluate('probe.app.seek(1e12)')
        self.assertEqual(self.page.ask('memory'), sum_of(program('vram', data=data)[0]))
        self.assertIn('damaged', self.page.load(gzip.compress(data)[:500]))
        told = self.page.load(in_zstd(data))
        self.assertEqual(told, True if self.page.ask('unpacks', 'zstd') else
                         'a.capture: this is a file packed by zstd, which this browser cannot unpack: unpack it first '
                         'with zstd -d')
        self.assertIn('truncated', self.page.load(gzip.compress(data[:500])))
