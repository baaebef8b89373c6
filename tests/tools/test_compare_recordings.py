"""Two recordings compared frame by frame, by a small player."""
import gzip
import os
import sys

from tests import support
from psxgpu import capture as c
from psxgpu.image import read_png

# A player whose picture is the colour of the last fill, as many cells wide as there were fills before, and whose video
# memory begins with the colours of all fills. It refuses a fill of colour 99. With `sums` it writes a picture at the end,
# with `list` a line for each fill.
PLAYER = '''#!%s
import hashlib, sys
from psxgpu.capture import events, records
mode, marks, words, colors = sys.argv[1], sys.argv[2:] == ['marks'], [], []
opcode = 0x3F if marks else 5
def picture():
    return b'P6\\n%%d 1\\n255\\n' %% max(len(colors), 1) + bytes(colors[-1:] * 3 or 3) * max(len(colors), 1)
def show(event):
    if mode == 'sums':
        print(event, max(len(colors), 1), 1, hashlib.sha256(picture()).hexdigest(), flush=True)
event = 0
for event, (kind, _, found) in enumerate(events(records(sys.stdin.buffer.read())[1]), 1):
    if kind == 2:
        words.append(found[0])
        if len(words) == 3:
            colors.append(words[0] & 255)
            if mode == 'list':
                print(event, 'fill %%08x 0 0 15 0' %% words[0])
            words = []
            if colors[-1] == 99:
                sys.exit(print('small: no 99 at event %%d' %% event, file=sys.stderr) or 2)
    if kind == 3 and found[0] >> 24 == opcode:
        show(event)
memory = (b''.join(bytes([color, 0]) for color in colors)).ljust(2048, bytes(1))
if mode == 'sums':
    if not marks:
        show(event + 1)
    print('vram', hashlib.sha256(memory).hexdigest())
if mode == 'vram':
    sys.stdout.buffer.write(memory)
if mode == 'shot':
    sys.stdout.buffer.write(picture())
''' % sys.executable


def film(*colors, end=0x05000000, reads=0):
    """A frame for each colour."""
    capture = c.Capture()
    for color in colors:
        capture.gp0(c.fill(color, 0, 0, 16, 1)).stat(reads).gp1(end) if reads else capture.gp0(
            c.fill(color, 0, 0, 16, 1)).gp1(end)
    return capture


class Recordings(support.InFolder):
    def setUp(self):
        super().setUp()
        os.chmod(self.write('small', PLAYER), 0o755)

    def compare(self, ours, theirs, *words):
        """The status and the lines of a comparison."""
        paths = [self.write(name, data if isinstance(data, bytes) else data.bytes())
                 for name, data in (('ours', ours), ('theirs', theirs))]
        done = support.run_tool('compare', *paths, *words, '--player', self.path('small'), cwd=self.folder)
        return done.returncode, done.stdout.splitlines() or done.stderr.replace(self.folder + '/', '')

    def test_equal(self):
        """A read of the status more, and another packing, are no difference."""
        self.assertEqual(self.compare(film(1, 2), film(1, 2, reads=2)), (0, ['equal: 2 frames, and video memory']))
        self.assertEqual(self.compare(film(1, 2), gzip.compress(film(1, 2).bytes())),
                         (0, ['equal: 2 frames, and video memory']))
        self.assertEqual(self.compare(c.Capture(), c.Capture()), (0, ['equal: 0 frames, and video memory']))

    def test_first_frame(self):
        status, lines = self.compare(film(1, 2, 3), film(1, 7, 3, reads=1), 'd.png', '--side', 's.png')
        self.assertEqual((status, lines[0]), (1, 'first differing frame: 2, event 8 and event 10'))
        self.assertRegex(lines[1], '^ours 2 by 1 [0-9a-f]{64}, theirs 2 by 1 [0-9a-f]{64}$')
        self.assertEqual(lines[2:], ['first differing cell: (0, 0): ours 020202, theirs 070707', 'cells that differ: 2',
                                     'their box: 0 0 1 0', 'by steps: 4 to 7: 2'])
        self.assertEqual(read_png(self.read('d.png')).pixels, b'\xff\x20\x20' * 2)
        self.assertEqual(read_png(self.read('s.png')).pixels, b'\2' * 6 + b'\7' * 6 + b'\xff\x20\x20' * 2)

    def test_marks(self):
        pair = film(1, 2, end=0x3F000000), film(1, 3, end=0x3F000000)
        self.assertEqual(self.compare(*pair, '--marks')[1][0], 'first differing frame: 2, event 8 and event 8')
        self.assertEqual(self.compare(*pair)[1][0], 'first differing frame: 1, event 8 and event 8')
        status, lines = self.compare(film(1, 2, end=0x3F000000), film(3, 2, end=0x3F000000))
        self.assertEqual((status, lines[0]), (1, 'equal: 1 frame'))
        self.assertRegex(lines[1], '^video memory after the end differs: ours [0-9a-f]{64}, theirs [0-9a-f]{64}$')
        self.assertEqual(lines[2], 'first differing cell: (0, 0): ours 0001, theirs 0003')

    def test_what_follows_the_last_end_is_a_frame_if_it_has_a_packet(self):
        alone = 'first differing frame: 2, event %d of theirs alone'
        for end, words, rest in ((0x05000000, [], '2 by 1 '), (0x3F000000, ['--marks'], 'no picture')):
            self.assertEqual(self.compare(film(1, end=end), film(1, end=end).stat(), *words),
                             (0, ['equal: 1 frame, and video memory']))
            lines = self.compare(film(1, end=end), film(1, end=end).gp0(c.fill(3, 0, 0, 16, 1)), *words)[1]
            self.assertEqual(lines[0], alone % 7)
            self.assertEqual(lines[1][:len(rest)], rest)
        self.assertEqual(self.compare(film(1).gp0(2, 0), film(1)), (0, ['equal: 1 frame, and video memory']))

    def test_other_sizes(self):
        status, lines = self.compare(film(1), film(1).gp0(c.fill(1, 0, 0, 16, 1)).gp1(5 << 24), 'd.png')
        self.assertEqual((status, lines[0]), (1, 'first differing frame: 2, event 8 of theirs alone'))
        self.assertEqual(lines[2], 'no picture is written: one recording alone has the frame')
        status, lines = self.compare(film(1), c.Capture().gp0(c.fill(1, 0, 0, 16, 1), c.fill(1, 0, 0, 16, 1))
                                     .gp1(5 << 24), 'd.png')
        self.assertEqual((status, lines[0]), (1, 'first differing frame: 1, event 4 and event 7'))
        self.assertEqual(lines[2], 'no picture is written: the frames are not of one size')
        self.assertFalse(os.path.exists(self.path('d.png')))

    def test_refused(self):
        """A difference before the refusal is found; else the refusal is the error."""
        self.assertEqual(self.compare(film(1, 99), film(1, 2)), (
            2, 'psxgpu compare: ours: small: no 99 at event 7; equal before that: 1 frame\n'))
        self.assertEqual(self.compare(film(1, 99), film(2, 2))[0], 1)

    def test_other_kinds(self):
        self.assertEqual(self.compare(film(1), bytes(2048)), (
            2, 'psxgpu compare: ours is a recording, theirs is not: compare it with a dump of the recording: '
               'psxgpu_tool vram < ours > vram.bin\n'))
        self.assertEqual(self.compare(film(1), film(1), '--tolerance', '3')[0], 2)
