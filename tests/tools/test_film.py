"""Films: their size, their format, and what is written if something fails."""
import os
import shutil
import subprocess
import unittest

from tests import support
from psxgpu import capture as c

FFMPEG, FFPROBE = shutil.which('ffmpeg'), shutil.which('ffprobe')


def shows(sizes):
    """A capture with a flip at the end of each frame of these sizes."""
    capture = c.Capture()
    for k, (w, h) in enumerate(sizes):
        capture.gp0(c.fill(0x10 * k, 0, 0, 640, 256)).gp1(c.screen(0, 0, w, h), c.display_start(0, k + 1))
    return capture


@support.needs_player
class Films(support.InFolder):
    def film(self, *words, **settings):
        return support.run_tool('film', *words, cwd=self.folder, **settings)

    @unittest.skipUnless(FFMPEG and FFPROBE, 'ffmpeg is not installed')
    def test_the_size_of_most_frames(self):
        shows([(256, 240), (320, 240), (320, 240), (320, 200)]).save(self.path('a.capture'))
        for words, size in (([], '640,480'), (['--scale', '1'], '320,240')):
            done = self.film('a.capture', 'film.mp4', *words)
            self.assertEqual((done.returncode, done.stderr, done.stdout), (0, '', ''))
            found = subprocess.run([FFPROBE, '-v', 'error', '-select_streams', 'v', '-show_entries',
                                    'stream=width,height,pix_fmt', '-of', 'csv=p=0', self.path('film.mp4')],
                                   capture_output=True, text=True, check=True).stdout
            self.assertEqual(found.strip(), size + ',yuv420p')
        self.assertEqual(sorted(os.listdir(self.folder)), ['a.capture', 'film.mp4'])

    @unittest.skipUnless(FFMPEG, 'ffmpeg is not installed')
    def test_lossless(self):
        """Each pixel is that of `frames`, also of odd sizes, and two runs write the same bytes."""
        capture = c.Capture()
        for k in range(3):
            capture.gp0(c.fill(0x204080 * (k + 1), 0, 0, 640, 256), c.fill(0xFF + k, 16, 3, 16, 5))
            capture.gp1(c.screen(0, 0, 256, 201), c.display_start(0, 0))
        capture.save(self.path('a.capture'))
        for name in 'one.mkv', 'two.mkv':
            done = self.film('a.capture', name, '--lossless', '--scale', '1')
            self.assertEqual((done.returncode, done.stderr), (0, ''))
        self.assertEqual(self.read('one.mkv'), self.read('two.mkv'))
        seen = subprocess.run([FFMPEG, '-v', 'error', '-i', self.path('one.mkv'), '-f', 'image2pipe', '-c:v', 'ppm', '-'],
                              capture_output=True, check=True).stdout
        with open(self.path('a.capture'), 'rb') as file:
            frames = subprocess.run([support.PLAYER, 'frames'], stdin=file, capture_output=True, check=True).stdout
        # Six flips. The last picture of `frames` is the one after the end, which is no frame here.
        self.assertEqual(frames.count(b'P6\n256 201\n'), 7)
        self.assertTrue(seen == frames[:len(frames) // 7 * 6])
        done = self.film('a.capture', 'film.mp4', '--lossless')
        self.assertEqual((done.returncode, done.stderr),
                         (2, 'psxgpu film: film.mp4: a lossless film is one of Matroska: film.mkv\n'))

    def small_ffmpeg(self, text):
        os.chmod(self.write('ffmpeg', '#!/bin/sh\n' + text), 0o755)
        return ['--ffmpeg', self.path('ffmpeg')]

    def test_marks_and_flips(self):
        """Marks count if there are any. Each of three frames has two flips, its screen and its display start. A packet
        after them makes a frame more. The small ffmpeg writes its input."""
        capture = shows([(320, 240)] * 3)
        capture.gp1(0x3F000000).gp1(0x3F000000).save(self.path('a.capture'))
        capture.gp0(c.fill(0, 0, 0, 16, 1)).save(self.path('more.capture'))
        words = self.small_ffmpeg('shift $(($# - 1)); cat > "$1"\n')
        for name, more, pictures in (('a', [], 2), ('a', ['--flips'], 6), ('more', ['--flips'], 7)):
            self.assertEqual(self.film(name + '.capture', 'out.bin', *words, *more).returncode, 0)
            self.assertEqual(self.read('out.bin').count(b'P6\n320 240\n'), pictures)

    def test_failures_leave_the_old_film(self):
        self.write('film.mp4', 'old')
        shows([(320, 240)]).save(self.path('good'))
        self.write('cut', self.read('good')[:-6])
        c.Capture().gp1(0x06200200).save(self.path('dark'))     # no column is shown
        words = self.small_ffmpeg('echo it is warned >&2; echo it is full >&2; exit 1\n')
        for source, out, more, said in (('good', 'film.mp4', words, 'ffmpeg: it is full'),
                                        ('cut', 'film.mp4', words, 'cut: psxgpu: truncated'),
                                        ('dark', 'film.mp4', words, 'dark: it shows no picture'),
                                        ('good', 'film.mp4', ['--ffmpeg', './none'], './none: not a program'),
                                        ('good', 'good', words, 'good is also the input: name another output'),
                                        ('good', '-', words, '-: name a file'),
                                        ('good', '/dev/full', words, '/dev/full: name a file'),
                                        ('good', 'no/film.mp4', words, 'no/film.mp4: No such file')):
            with self.subTest(source=source, out=out, more=more):
                done = self.film(source, out, *more)
                self.assertEqual((done.returncode, done.stderr.count('\n')), (2, 1), done)
                self.assertIn('psxgpu film: ' + said, done.stderr)
                self.assertEqual(self.read('film.mp4'), b'old')
                self.assertEqual(sorted(os.listdir(self.folder)), ['cut', 'dark', 'ffmpeg', 'film.mp4', 'good'])

    def test_no_ffmpeg(self):
        shows([(320, 240)]).save(self.path('good'))
        done = self.film('good', 'film.mp4', env=dict(os.environ, PATH=self.folder, PLAYER=support.PLAYER,
                                                      PYTHONPATH=support.TOP))
        self.assertEqual((done.returncode, done.stderr.count('\n')), (2, 1))
        self.assertIn('ffmpeg is not on the path', done.stderr)
