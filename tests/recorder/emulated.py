"""An emulator for the tests of the plugin: test_plugin.c stands for it, and for the plugin that draws."""
import os
import shutil
import subprocess
import tempfile
import unittest

from tests.recorder.testing import HERE, RECORDER, Capture, file_of


def build():
    """The plugin that records, one that draws nothing, and an emulator for both."""
    global FOLDER, RECORDS, DRAWS, EMULATOR
    FOLDER = tempfile.mkdtemp()
    RECORDS, DRAWS, EMULATOR = (os.path.join(FOLDER, name) for name in ('records.so', 'draws.so', 'emulator'))
    strict = ['gcc', '-std=gnu99', '-Wall', '-Wextra', '-pedantic', '-Werror', '-O1', '-I', RECORDER]
    library = strict + ['-shared', '-fPIC']
    sources = [os.path.join(RECORDER, name) for name in ('psxgpu_record.c', 'recording.c', 'drawing.c')]
    test = os.path.join(HERE, 'test_plugin.c')
    others = [library + ['-o', os.path.join(FOLDER, name + '.so'), os.path.join(RECORDER, name + '.c')]
              for name in ('noxv', 'nullspu')]
    for command in [library + ['-fvisibility=hidden', '-o', RECORDS] + sources + ['-ldl'],
                    library + ['-DDRAWING', '-o', DRAWS, test], strict + ['-o', EMULATOR, test, '-ldl']] + others:
        subprocess.run(command, check=True)


def clear():
    shutil.rmtree(FOLDER)


class Emulated(unittest.TestCase):
    """A script of lines `gp0 WORD` .. for the emulator, settings, and the captures that are left."""

    @classmethod
    def setUpClass(cls):
        build()
        cls.built = FOLDER

    @classmethod
    def tearDownClass(cls):
        clear()

    def setUp(self):
        self.folder = tempfile.mkdtemp()
        self.addCleanup(shutil.rmtree, self.folder)

    def emulate(self, script, most=None, **settings):
        """What the emulator says, its status, and the files by the end of their names."""
        values = {'PSXGPU_' + name.upper(): str(value) for name, value in settings.items()}
        surroundings = dict(os.environ, PSXGPU_PLUGIN=DRAWS, PSXGPU_CAPTURE=os.path.join(self.folder, 'a'))
        surroundings.update(values)
        lines = [line.split() for line in script.strip().split(';')]
        text = ''.join(' '.join((line + ['0', '0'])[:3]) + '\n' for line in lines)
        done = subprocess.run([EMULATOR, RECORDS], input=text.encode(), stdout=subprocess.PIPE, stderr=subprocess.PIPE,
                              env=surroundings, preexec_fn=file_of(most) if most else None)
        self.said, self.errors, self.status = done.stdout.decode(), done.stderr.decode(), done.returncode
        files = {}
        for name in os.listdir(self.folder):
            with open(os.path.join(self.folder, name), 'rb') as file:
                files[name[1:]] = file.read()
        return files

    def state(self, settings, control, last=()):
        """The state that the plugin writes before all else."""
        words = [3 * k & 0xFFFF for k in range(512 * 1024)]
        want = Capture(2).gp1(0)
        for top in (0, 256):
            for left in (0, 512):
                at = [1024 * y + x for y in range(top, top + 256) for x in range(left, left + 512, 2)]
                want.gp0(0xA0000000, top << 16 | left, 0x01000200, [words[k] | words[k + 1] << 16 for k in at])
        return want.gp0([0xE1 + k << 24 | value for k, value in enumerate(settings)]).gp1(control).gp0(last)
