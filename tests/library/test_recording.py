"""Captures and snapshots to iterate over, against the library's own modes"""
import os
import unittest

ROOT = os.path.dirname(os.path.dirname(os.path.dirname(os.path.abspath(__file__))))

import psxgpu
from psxgpu.capture import Capture, GP0, fill, screen
from tests.library.support import EXAMPLES, bytes_at, needs_library

setUpModule = needs_library
PACKED = [os.path.join(ROOT, 'examples', name + '.capture.gz') for name in ('cube', 'ports')]


def played(data, mode):
    """What the library writes in a mode, and the line with which it refuses the recording."""
    try:
        return psxgpu.play(data, mode), ''
    except psxgpu.Refused as bad:
        return bad.output, str(bad)


def taken(items):
    """The items up to a refusal, and its line."""
    found, refusal = [], ''
    try:
        for item in items:
            found.append(item)
    except psxgpu.Refused as bad:
        refusal = str(bad)
    return found, refusal


def line_of(packet):
    """A packet as `list` writes it."""
    area = ' '.join(map(str, packet.area)) if packet.area else '-'
    return '%d %s %08x %s' % (packet.event, packet.name, packet.head, area)


def ppm_of(frame):
    """A frame as `frames` writes it."""
    pixels = b''.join(frame.rgba[k:k + 3] for k in range(0, len(frame.rgba), 4))
    return b'P6\n%d %d\n255\n' % (frame.width, frame.height) + pixels


def snapshot_of(records):
    """A snapshot in the middle of a capture of a fill, and the records after it."""
    with psxgpu.Machine() as machine:
        for word in screen(0, 0, 320, 240):
            machine.gp1(word)
        machine.gp0(fill(0x0000FF, 0, 0, 64, 64)[:2])
        return machine.save()[:-4] + records


class Recordings(unittest.TestCase):
    def each(self):
        """The examples, as paths and as bytes, and a snapshot with records."""
        rest = Capture().gp0(fill(0, 0, 0, 64, 64)[2:]).gp1(0x05000000, 0x05000400).stat().bytes()[8:]
        for source in [*EXAMPLES, *PACKED, bytes_at(EXAMPLES[0]), snapshot_of(rest)]:
            with self.subTest(source=source if isinstance(source, str) else len(source)):
                yield source

    def test_records(self):
        """Record by record, a machine comes to the words and the memory that `play` and `vram` give."""
        for source in self.each():
            recording, words = psxgpu.Recording(source), []
            with recording.machine() as machine:
                try:
                    for record in recording.records():
                        words += record.play(machine)
                    text = ''.join('%08x\n' % word for word in words) + 'status %08x\n' % machine.status()
                    self.assertEqual((text, machine.vram()),
                                     (played(source, 'play')[0].decode(), played(source, 'vram')[0]))
                except psxgpu.Refused as bad:
                    self.assertEqual(str(bad), played(source, 'play')[1])

    def test_packets(self):
        for source in self.each():
            found, refusal = taken(psxgpu.Recording(source).packets())
            lines, wanted = played(source, 'list')
            self.assertEqual((list(map(line_of, found)), refusal), (lines.decode().splitlines(), wanted))

    def test_frames(self):
        for source in self.each():
            for mode, marks in (('frames', False), ('frames marks', True)):
                found, refusal = taken(psxgpu.Recording(source).frames(marks))
                self.assertEqual((b''.join(map(ppm_of, found)), refusal), played(source, mode))
                sums = [line.split()[:3] for line in played(source, mode.replace('frames', 'sums'))[0].splitlines()]
                self.assertEqual([(it.event, it.width, it.height) for it in found],
                                 [tuple(map(int, line)) for line in sums if line[0] != b'vram'])

    def test_cut(self):
        """What is before the end of the bytes is yielded, then ValueError with the byte."""
        whole = Capture().gp0(1, 2).gp0(3, 4).bytes()
        for data, start in ((whole[:28], 0), (snapshot_of(whole[8:28]), len(snapshot_of(b'')) - 8)):
            records = psxgpu.Recording(data).records()
            self.assertEqual((next(records).words.tolist(), next(records).words.tolist()), ([1, 2], [3]))
            self.assertRaisesRegex(ValueError, 'the recording: cut at byte %d' % (start + 28), next, records)

    def test_what_a_record_says(self):
        record = next(psxgpu.Recording(Capture().gp0(1, 2).bytes()).records())
        self.assertEqual((record.kind, record.name, record.count, record.events), (GP0, 'Gp0', 2, 2))
