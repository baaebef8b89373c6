"""The skeletons of a player, examples/player.c and examples/player.py: what they write, and how they end."""
import os
import random
import shutil
import struct
import subprocess
import sys
import tempfile

from tests import support

from psxgpu import capture as c

CHAPTERS = ('fills', 'loads', 'stores', 'status', 'reads', 'display')
RECORDER = os.path.join(support.TOP, 'recorder')
STRICT = ['-O1', '-Wall', '-Wextra', '-pedantic', '-Wconversion', '-Wshadow', '-Werror']
BARE = {name: value for name, value in os.environ.items() if name != 'PYTHONPATH'}


def random_capture(r):
    """A capture of what the toy draws, and of reads."""
    out = c.Capture(r.choice((1, 2))).gp0(c.drawing_area(*sorted(r.sample(range(64), 2)), 90, 80))
    for _ in range(r.randrange(3, 12)):
        x, y, w, h = r.randrange(90), r.randrange(80), r.randrange(1, 12), r.randrange(1, 12)
        cells = [r.getrandbits(16) for _ in range(w * h)]
        out.gp0(r.choice((c.fill(r.getrandbits(24), x // 16 * 16, y, 16, h), c.load(x, y, w, h, cells),
                          c.rectangle(r.getrandbits(24), x, y, w, h), c.mask_setting(r.random() < .3, r.random() < .3),
                          c.drawing_offset(r.randrange(9), r.randrange(9)), c.interrupt(),
                          c.texture_window(1, 2, 3, 4))))
        if r.random() < .5:
            out.gp0(c.store(x, y, w, h)).read(r.randrange(1, 9)).stat()
        if r.random() < .3:
            out.gp1(r.choice((c.dma_direction(r.randrange(4)), c.information(r.randrange(16)), c.clear_commands(),
                              c.display_mode(r.randrange(256)), c.display_on())))
    return out.bytes()


class Players(support.InFolder):
    """Of both languages: a list of the command of each."""

    @classmethod
    def setUpClass(cls):
        cls.place = tempfile.TemporaryDirectory()
        cls.addClassCleanup(cls.place.cleanup)
        cls.commands = [[sys.executable, os.path.join(support.EXAMPLES, 'player.py')]]
        if shutil.which('gcc'):
            program = os.path.join(cls.place.name, 'player')
            source = os.path.join(support.EXAMPLES, 'player.c')
            subprocess.run(['gcc', '-std=c99', *STRICT, '-I', RECORDER, source, '-o', program], check=True)
            cls.commands.append([program])

    def run_each(self, data, *words):
        """Yields the end of each player."""
        for command in self.commands:
            with self.subTest(command[-1]):
                yield subprocess.run([*command, *words], input=data, capture_output=True, cwd=self.folder, env=BARE)

    @support.needs_player
    def test_as_psxgpu_tool(self):
        r = random.Random(1)
        for _ in range(6):
            data = random_capture(r)
            for mode in ('vram', 'play', 'shot'):
                wanted = subprocess.run([support.PLAYER, mode], input=data, capture_output=True, check=True).stdout
                for done in self.run_each(data, mode):
                    self.assertEqual((done.returncode, done.stdout == wanted, done.stderr), (0, True, b''))

    def test_the_suite(self):
        """The table has no test that fails, and says that DMA is not taken."""
        for command in self.commands:
            chapters = CHAPTERS[:3] if command[0] == sys.executable else CHAPTERS
            only = [word for name in (*chapters, 'dma/blocks') for word in ('--only', name)]
            done = support.run_tool('conform', ' '.join(command), '--strict', *only)
            self.assertEqual((done.returncode, done.stderr), (0, ''), done.stdout)
            for name in chapters:
                self.assertRegex(done.stdout, r'\| %s \| (\d+) \| \1 \|  \|  \|  \|  \|' % name)
            self.assertIn('| dma | 1 |  |  |  | 1 |  |', done.stdout)

    def test_records_that_it_does_not_know(self):
        for capture, text in ((c.Capture().stat().dma(2, 0x1000, 1, 0), 'main memory and DMA are not supported'),
                              (c.Capture().ram(0, 1), 'main memory and DMA are not supported'),
                              (c.Capture(2).turn(), 'main memory and DMA are not supported'),
                              (c.Capture(3).stat(), '1024 rows is not supported')):
            for done in self.run_each(capture.bytes(), 'vram'):
                self.assertEqual((done.returncode, done.stdout), (2, b''))
                self.assertRegex(done.stderr.decode(), '^player.*: .*%s\n$' % text)

    def test_damaged_captures_and_wrong_arguments(self):
        bad_tag = b'PSXGPUC1' + struct.pack('<I', 0x11000000)
        for data in (b'', b'PSXGPUC9', c.Capture().gp0(1, 2, 3).bytes()[:-6], bad_tag):
            for done in self.run_each(data, 'vram'):
                self.assertEqual((done.returncode, done.stdout, done.stderr.count(b'\n')), (2, b'', 1))
        for words in ([], ['draw'], ['vram', 'play']):
            for done in self.run_each(b'', *words):
                self.assertEqual((done.returncode, done.stdout, done.stderr.count(b'\n')), (1, b'', 1))
        no_picture = c.Capture().gp1(c.vertical_range(5, 5)).bytes()
        for done in self.run_each(no_picture, 'shot'):
            self.assertEqual((done.returncode, done.stdout, done.stderr.count(b'\n')), (2, b'', 1))
