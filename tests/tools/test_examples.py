"""The examples, and the picture of the README."""
import hashlib
import os
import subprocess
import sys
import unittest

from tests import support
import psxgpu
from examples import make
from psxgpu.image import read_png


class Examples(unittest.TestCase):
    def test_made_as_they_lie_there(self):
        for name, example in make.EXAMPLES.items():
            with open(support.example(name), 'rb') as file:
                self.assertTrue(example().bytes() == file.read(), name)

    def test_frame(self):
        """The picture in the README is what `shot` gives, whose sum stands beside the example."""
        with open(os.path.join(support.TOP, 'docs', 'frame.png'), 'rb') as file:
            image = read_png(file.read())
        total = hashlib.sha256(b'P6\n%d %d\n255\n' % (image.width, image.height) + image.pixels).hexdigest()
        with open(os.path.join(support.EXAMPLES, 'textured-frame.txt')) as file:
            self.assertIn('textured-frame.capture | sha256sum\n%s  -' % total, file.read())


class WithNumpy(support.InFolder):
    """Where numpy, PIL and the library are there."""

    def setUp(self):
        super().setUp()
        try:
            import numpy  # noqa: F401
            from PIL import Image
            psxgpu.library()
        except (ImportError, psxgpu.Missing) as missing:
            self.skipTest(str(missing))
        self.image = Image

    def example(self, *words):
        subprocess.run([sys.executable, os.path.join(support.EXAMPLES, 'with_numpy.py'), *words], cwd=self.folder,
                       check=True)

    def test_ramp(self):
        """Bar k has the red 8 * k, of which five bits are kept and shown as eight."""
        self.example('ramp.png')
        with self.image.open(self.path('ramp.png')) as picture:
            self.assertEqual(picture.size, (320, 240))
            self.assertEqual([picture.getpixel((10 * k + 9, 239)) for k in range(32)],
                             [(8 * k + k // 4, 0, 0, 255) for k in range(32)])

    def test_film(self):
        self.example('film.gif', support.example('flips'))
        with self.image.open(self.path('film.gif')) as film:
            self.assertEqual((film.size, film.format), ((256, 64), 'GIF'))
            self.assertGreater(film.n_frames, 3)
