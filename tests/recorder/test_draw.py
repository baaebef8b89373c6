"""Tests of the plugin that draws They need gcc and libpsxgpu.a, and neither an emulator
nor a screen."""
import os
import subprocess
import tempfile
import unittest

from tests import support
from tests.recorder.testing import HERE, RECORDER, TOP

LIBRARY = os.environ.get('PSXGPU_LIBRARY') or os.path.join(TOP, 'out', 'libpsxgpu.a')



def setUpModule():
    support.needs('gcc')()
    if not os.path.exists(LIBRARY):
        raise unittest.SkipTest('no libpsxgpu.a: make lib')


class Draw(unittest.TestCase):
    """What it answers to a script of test_plugin.c. Values are by hand: a fill of FF0000h leaves cells 001Fh."""

    @classmethod
    def setUpClass(cls):
        cls.place = tempfile.TemporaryDirectory()
        cls.plugin, cls.emulator = (os.path.join(cls.place.name, name) for name in ('draw.so', 'emulator'))
        strict = ['gcc', '-std=gnu99', '-Wall', '-Wextra', '-Werror', '-O1', '-I', RECORDER, '-I',
                  os.path.join(TOP, 'c')]
        sources = [os.path.join(RECORDER, name) for name in ('psxgpu_draw.c', 'window.c')]
        subprocess.run([*strict, '-shared', '-fPIC', '-fvisibility=hidden', *sources, LIBRARY, '-ldl',
                        '-Wl,--exclude-libs,ALL', '-o', cls.plugin], check=True)
        subprocess.run([*strict, os.path.join(HERE, 'test_plugin.c'), '-ldl', '-o', cls.emulator], check=True)

    @classmethod
    def tearDownClass(cls):
        cls.place.cleanup()

    def emulate(self, script):
        """The words that the plugin gives."""
        lines = [line.split() for line in script.split(';')]
        text = ''.join(' '.join((line + ['0', '0'])[:3]) + '\n' for line in lines)
        done = subprocess.run([self.emulator, self.plugin], input=text, stdout=subprocess.PIPE, text=True, check=True)
        return done.stdout.split()

    FILL = 'gp0 20000ff; gp0 0; gp0 100010;'

    def test_words_and_reads(self):
        self.assertEqual(self.emulate(self.FILL + 'gp0 c0000000; gp0 f; gp0 10002; read'), ['0000001f'])

    def test_dma(self):
        """A list of two nodes, a block in, a block out."""
        script = ('ram 100 2000200; ram 104 20000ff; ram 108 0; ram 200 1ffffff; ram 204 100010; list 100;'
                  'ram 300 c0000000; ram 304 f; ram 308 10002; in 300 3; out 400 1; in 300 3; read')
        self.assertEqual(self.emulate(script), ['0000001f'])

    def test_list_without_end(self):
        script = ('ram 100 3000100; ram 104 20000ff; ram 108 0; ram 10c 100010; list 100;'
                  'gp0 c0000000; gp0 0; gp0 10002; read')
        self.assertEqual(self.emulate(script), ['001f001f'])

    def test_status(self):
        """The status after a reset as docs/MACHINE.md has it; bit 31 changes with each vertical blank."""
        self.assertEqual(self.emulate('stat; frame 1; stat; frame 1; stat'), ['14802000', '94802000', '14802000'])
        self.assertEqual(self.emulate('gp1 3000000; stat'), ['14002000'])

    def test_saved_state(self):
        """A state that was not saved by it: E1h and E6h come from the status word, the rest is 0."""
        self.assertEqual(self.emulate(self.FILL + 'load; gp0 c0000000; gp0 0; gp0 10002; read'), ['00000000'])
