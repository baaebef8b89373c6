"""The command `record` with an emulator that is a line of shell, for tests."""
import os
import shutil
import subprocess
import sys
import tempfile
import unittest

from tests.recorder.testing import RECORDER

RECORD = os.path.join(RECORDER, 'record')


class Command(unittest.TestCase):
    """The command with an emulator that is a line of shell."""

    def setUp(self):
        self.folder = tempfile.mkdtemp()
        self.addCleanup(shutil.rmtree, self.folder)
        for name in ('libpsxgpu_record.so', 'libnullspu.so', 'noxv.so', 'draws.so'):
            self.write(name, '')
        self.program = self.write('a.exe', 'PS-X EXE')
        self.capture = os.path.join(self.folder, 'a.capture')

    def write(self, name, text, mode=0o644):
        path = os.path.join(self.folder, name)
        with open(path, 'w') as file:
            file.write(text)
        os.chmod(path, mode)
        return path

    def command(self, *words, pcsxr='exit 0', program=None, frames='9'):
        emulator = self.write('pcsxr', '#!/bin/sh\n%s\n' % pcsxr, 0o755)
        command = [sys.executable, RECORD, program or self.program, self.capture, frames, '--screen']
        command += ['--built', self.folder, '--pcsxr', emulator, '--plugin', os.path.join(self.folder, 'draws.so')]
        return command + list(words)

    def record(self, *words, **settings):
        done = subprocess.run(self.command(*words, **settings), stdout=subprocess.PIPE, stderr=subprocess.PIPE)
        return done.returncode, done.stdout.decode(), done.stderr.decode()
