"""Tests of the command `record`, without an emulator What stands for pcsxr is a line
of shell."""
import os
import shutil
import subprocess
import sys
import tempfile
import unittest

from recorder.mend import mend
from tests.recorder.recorded import RECORD, Command
from tests.recorder.testing import Capture


class Mending(unittest.TestCase):
    def setUp(self):
        self.folder = tempfile.mkdtemp()
        self.addCleanup(shutil.rmtree, self.folder)

    def mended(self, data):
        path = os.path.join(self.folder, 'a')
        with open(path, 'wb') as file:
            file.write(data)
        needed = mend(path)
        with open(path, 'rb') as file:
            return needed, file.read()

    def test_every_place(self):
        """Cut anywhere, a capture keeps its whole records."""
        parts = [b'PSXGPUC2'] + Capture(2).gp0(1, 2).gp1(3).ram(8, 4, 5).read(9).stat().dma(2, 6, 7, 8).skip(2).records
        whole = b''.join(parts)
        self.assertEqual(self.mended(whole + bytes(4)), (False, whole + bytes(4)))
        self.assertEqual(self.mended(whole + bytes(7)), (False, whole + bytes(7)))
        for end in range(8, len(whole)):
            kept = b''
            for part in parts:
                if len(kept) + len(part) > end:
                    break
                kept += part
            self.assertEqual(self.mended(whole[:end]), (True, kept + bytes(4)))


class Missing(Command):
    def test_no_program(self):
        status, _, errors = self.record(program='/nowhere/b.exe')
        self.assertEqual((status, errors), (1, 'record: no program /nowhere/b.exe\n'))

    def test_no_bios(self):
        status, _, errors = self.record('--bios', '/nowhere/bios')
        self.assertEqual((status, errors), (1, 'record: no BIOS /nowhere/bios\n'))

    def test_not_built(self):
        os.remove(os.path.join(self.folder, 'noxv.so'))
        status, _, errors = self.record()
        self.assertEqual((status, errors), (77, 'record: no %s/noxv.so: run recorder/build\n' % self.folder))

    def test_no_pcsxr(self):
        command = [sys.executable, RECORD, self.program, self.capture, '9', '--built', self.folder]
        done = subprocess.run(command, stderr=subprocess.PIPE, env=dict(os.environ, PATH=self.folder))
        if shutil.which('pcsxr', path='/usr/games:/usr/bin'):
            self.skipTest('pcsxr is on this machine')
        self.assertEqual((done.returncode, done.stderr.decode()), (77, (
            'record: no pcsxr on this machine: apt-get update && apt-get install --no-install-recommends pcsxr\n')))

    def test_no_plugin(self):
        status, _, errors = self.record('--plugin', '/nowhere/draws.so')
        self.assertEqual((status, errors), (1, 'record: no plugin /nowhere/draws.so\n'))

    def test_arguments(self):
        for words in (['--from', 'x'], ['--split', '-1'], ['--what']):
            self.assertEqual(self.record(*words)[0], 2)
