"""The tool trim: a snapshot of some frames plays as the whole does there."""
import os
import subprocess

from tests import support
from psxgpu import capture as c


def sums(path, *words):
    """The lines of `sums` but the last one, of video memory."""
    with open(path, 'rb') as file:
        done = subprocess.run([support.PLAYER, 'sums', *words], stdin=file, capture_output=True, text=True, check=True)
    return done.stdout.splitlines()[:-1]


def recording(frames, is_whole=True):
    """A capture of `frames` marks, with DMA; a rectangle after the last one unless it is whole."""
    out = c.Capture(2).gp1(c.screen(0, 0, 256, 16)).gp0(c.drawing_area(0, 0, 255, 255))
    table = c.OrderingTable(out)
    for k in range(frames):
        table.clear()
        table.add(0, c.rectangle(0x0000FF + 256 * k, 8 * k, 0, 8, 8))
        table.draw()
        out.gp1(0x3F000001 + k)
    return out if is_whole else out.gp0(c.rectangle(0xFFFFFF, 0, 8, 8, 8))


@support.needs_player
class Trim(support.InFolder):
    def trim(self, *words, status=0):
        done = support.run_tool('trim', *words, cwd=self.folder)
        self.assertEqual((done.returncode, done.stderr.count('\n')), (status, status and 1), done)
        return done.stderr

    def expect_frames(self, frames, first, last, name='out'):
        """The frames of a file are those of the whole, with their events."""
        self.assertEqual(sums(self.path(name), 'marks'), sums(self.path('in'), 'marks')[first - 1:last])

    def test_frames_by_marks(self):
        self.write('in', recording(6).bytes())
        for text, first, last in (('2-3', 2, 3), ('1-2', 1, 2), ('6', 6, 6), ('4-', 4, 6), ('1-6', 1, 6)):
            with self.subTest(text):
                self.trim('--frames', text, 'in', '-o', 'out')
                self.expect_frames(6, first, last)
                self.assertEqual(self.read('out')[:8], b'PSXGPUC2' if first == 1 else b'PSXGPUS1')

    def test_an_unfinished_frame_is_one(self):
        self.write('in', recording(2, is_whole=False).bytes())
        self.trim('--frames', '3', 'in', '-o', 'out')
        vram = [subprocess.run([support.PLAYER, 'vram', self.path(name)], capture_output=True, check=True).stdout
                for name in ('in', 'out')]
        self.assertTrue(vram[0] == vram[1])
        self.assertIn('in: it has 3 frames', self.trim('--frames', '3-4', 'in', '-o', 'out', status=2))

    def test_flips_and_a_part_of_a_part(self):
        """flips.capture has no marks. Frames of a snapshot are counted from its own beginning."""
        whole = sums(support.example('flips'))
        self.trim('--frames', '2-4', support.example('flips'), '-o', 'out')
        self.assertEqual(sums(self.path('out'))[:3], whole[1:4])
        self.trim('--frames', '1-2', 'out', '-o', 'less')
        self.assertEqual(sums(self.path('less'))[:2], whole[1:3])
        self.assertIn('it cannot be cut again', self.trim('--frames', '2', 'out', '-o', 'no', status=2))
        self.write('in', recording(2).gp1(c.display_start(0, 0)).gp0(0).bytes())
        self.trim('--frames', '2', '--flips', 'in', '-o', 'flip')     # the first ends with `screen`
        self.assertEqual(len(sums(self.path('flip'), 'marks')), 2)

    def test_standard_streams_and_packed_files(self):
        path = os.path.join(support.EXAMPLES, 'cube.capture.gz')
        with open(path, 'rb') as file:
            done = support.run_tool('trim', '--frames', '20-21', '-', stdin=file, text=False)
        self.trim('--frames', '20-21', path, '-o', 'out')
        self.assertEqual(done.stdout, self.read('out'))

    def test_refusals_leave_the_old_file(self):
        self.write('in', recording(2).bytes())
        self.write('cut', recording(2).bytes()[:-9])
        self.write('loop', c.Capture().ram(0, 0).dma(2, 0, 0, c.LIST).gp1(0x3F000001).gp1(0x3F000002).bytes())
        self.write('out', b'old')
        for frames, name, text in (('3', 'in', 'in: it has 2 frames'), ('2-1', 'in', 'after the last'),
                                   ('0', 'in', 'not a range of frames'), ('x', 'in', 'not a range of frames'),
                                   ('1', 'cut', 'cut: cut at byte'), ('1', 'none', 'none: No such file'),
                                   ('2', 'loop', 'loop: psxgpu: list-loop at event 2'),
                                   ('1', 'out', 'out is also the input')):
            self.assertIn(text, self.trim('--frames', frames, name, '-o', 'out', status=2))
            self.assertEqual(self.read('out'), b'old')
        self.assertEqual(sorted(os.listdir(self.folder)), ['cut', 'in', 'loop', 'out'])
