"""Frames are numbered from 1 in every tool: with flips, without, and in a recording that ends at a flip."""
import gzip
import os
import re
import struct

from tests import support
from psxgpu import capture as c


def recording(flips, has_rest=False, end=0x05000000):
    """Frames of a fill and a square, each ended by a control word; then one more packet, or a read of the status."""
    out = c.Capture(2).gp1(0x08000001, 0x06C00200, 0x07040010, 0x03000000).gp0(c.drawing_area(0, 0, 319, 239))
    for k in range(flips):
        out.gp0(c.fill(0x101010 * k, 0, 0, 320, 240), c.rectangle(0x0000FF, 8 * k, 0, 8, 8)).gp1(end)
    return (out.gp0(c.rectangle(0x00FF00, 0, 8, 8, 8)) if has_rest else out.stat()).bytes()


@support.needs_player
class Numbers(support.InFolder):
    def lines(self, tool, *words):
        """The lines of a tool."""
        done = support.run_tool(tool, *words, cwd=self.folder)
        self.assertEqual(done.returncode, 0, done)
        return done.stdout.splitlines()

    def test_no_recording(self):
        """What is empty has no frames; the player says what it is."""
        self.write('flips.gz', gzip.compress(recording(2)))
        for names in (os.devnull, 'flips.gz'), ('flips.gz', os.devnull):
            done = support.run_tool('compare', *names, cwd=self.folder)
            self.assertEqual((done.returncode, done.stderr), (
                2, 'psxgpu compare: /dev/null: psxgpu: truncated at event 1 byte 0; equal before that: 0 frames\n'))

    def count(self, name, *by):
        """The number of frames, by each tool. `by`: nothing, or how the tools heed flips beside marks."""
        done = support.run_tool('trim', '--frames', '99', name, *by, cwd=self.folder)
        last = self.lines('compare', name, name, *([] if by else ['--marks']))[0]
        return {'heat': sum(line[0].isdigit() for line in self.lines('heat', name, *by)),
                'trim': int(re.search(r'has (\d+) frame', done.stderr)[1]),
                'compare': int(re.fullmatch(r'equal: (\d+) frames?, and video memory', last)[1])}

    def check(self, data, count, by=('--flips',)):
        self.write('in', data)
        self.assertEqual(self.count('in', *by), dict(heat=count, trim=count, compare=count))
        if by:
            self.assertIn('frames: %d' % count, self.lines('check', 'in'))

    def test_that_ends_at_a_flip(self):
        self.check(recording(3), 3)

    def test_with_a_packet_after_the_last_flip(self):
        self.check(recording(3, has_rest=True), 4)

    def test_without_flips(self):
        self.check(recording(0, has_rest=True), 1)

    def test_marks(self):
        self.check(recording(2, end=0x3F000001), 2, by=())
        self.check(recording(2, True, end=0x3F000001), 3, by=())
        self.check(recording(2, end=0x3F000001), 1)

    def test_examples(self):
        """flips has four, and no packet after the last; smear has none; textured-frame is drawn after its flip."""
        for name, count in (('flips', 4), ('smear', 1), ('textured-frame', 2)):
            with open(support.example(name), 'rb') as file:
                self.check(file.read(), count)

    def test_a_film_has_a_picture_for_each_frame(self):
        self.write('ffmpeg', '#!/bin/sh\nshift $(($# - 1)); cat > "$1"\n')
        os.chmod(self.path('ffmpeg'), 0o755)
        for flips, rest, count in ((3, False, 3), (3, True, 4), (0, True, 1)):
            self.write('in', recording(flips, rest))
            self.lines('film', 'in', 'out.bin', '--ffmpeg', self.path('ffmpeg'))
            self.assertEqual(self.read('out.bin').count(b'P6\n320 240\n'), count)

    def test_which_frame_differs(self):
        """The third of three frames, and what follows them."""
        self.write('a', recording(3, True))
        other = recording(3, True)
        for name, number, word in (('b', 3, 0x02202020), ('d', 4, 0x7000FF00)):
            self.write(name, other.replace(struct.pack('<I', word), struct.pack('<I', word ^ 0x2000)))
            done = support.run_tool('compare', 'a', name, cwd=self.folder)
            self.assertIn('first differing frame: %d,' % number, done.stdout)
