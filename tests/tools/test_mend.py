"""Recordings that were cut, made whole."""
import gzip
import io
import lzma
import os
import struct

from tests import support
from psxgpu import capture as c
from psxgpu.mending import whole_of


class Mended(support.InFolder):
    def mend(self, *words):
        return support.run_tool('mend', *words, cwd=self.folder)

    def test_every_cut(self):
        """All events that are there are kept, wherever a recording is cut."""
        whole = c.Capture(2).gp0(1, 2, 3).gp1(0x05000000).ram(16, 4, 5).dma(6, 64, 4, c.CLEAR_TABLE).read(2).bytes()
        every = list(c.events(c.records(whole)[1]))
        for n in range(8, len(whole)):
            with self.subTest(n):
                size, rest, _ = whole_of(io.BytesIO(whole[:n]), 'it')
                found = list(c.events(c.records(whole[:size] + rest)[1]))
                self.assertEqual(found, every[:len(found)])
                self.assertEqual(len(found), self.events_in(whole[:n]))
        self.assertEqual(whole_of(io.BytesIO(whole + b'more'), 'it'), (len(whole), b'', ''))

    @staticmethod
    def events_in(data):
        """How many events are there whole, by the words of each record above."""
        ends = [16, 20, 24, 32, 44, 48, 64, 68]     # the byte after each event; both reads are one record
        return sum(end <= len(data) for end in ends) + (len(data) >= 68)

    def test_in_place(self):
        data = c.Capture().gp0(1, 2, 3).bytes()
        path = self.write('it', data[:18])
        os.chmod(path, 0o640)
        self.assertEqual(self.mend('it').stdout, 'made whole\n')
        self.assertEqual(self.read('it'), c.Capture().gp0(1).bytes())
        self.assertEqual(os.stat(path).st_mode & 0o777, 0o640)
        self.assertEqual(self.mend('it').stdout, 'it was whole\n')
        self.assertEqual(os.listdir(self.folder), ['it'])

    def test_packed(self):
        """A packed recording is unpacked, and the output packed if its name says so."""
        whole, cut = c.Capture().gp0(1).bytes(), c.Capture().gp0(1, 2, 3).bytes()[:18]
        self.write('it.gz', gzip.compress(cut))
        self.write('it.xz', lzma.compress(cut))
        for source in ('it.gz', 'it.xz'):
            self.assertEqual(self.mend(source, 'plain').stdout, 'made whole\n')
            self.assertEqual(self.read('plain'), whole)
        self.assertEqual(self.mend('it.xz', 'out.gz').stdout, 'made whole\n')
        self.assertEqual(gzip.decompress(self.read('out.gz')), whole)
        self.assertEqual(self.mend('out.gz', 'again').stdout, 'it was whole\n')
        self.assertEqual(self.read('again'), whole)

    def test_packed_and_cut(self):
        """Of packed bytes that are cut, what can be unpacked is kept, and the line says so."""
        packer = gzip.compress(c.Capture().gp0(1).bytes(), 0)
        self.write('it.gz', packer[:-12])       # the sums at the end, and the End record
        done = self.mend('it.gz', 'out')
        self.assertRegex(done.stdout, 'made whole: all that can be unpacked of it.gz: damaged: .+\n')
        self.assertEqual((self.read('out'), done.returncode), (c.Capture().gp0(1).bytes(), 0))

    def test_refused(self):
        self.write('foreign', b'nothing of ours')
        self.write('bad', c.Capture().gp0(1).bytes()[:-4] + struct.pack('<I', 77 << 24))
        self.write('good', c.Capture().gp0(1).bytes())
        self.write('it.gz', gzip.compress(b'PSXGPUC1'))
        for words, said in ((['foreign'], 'foreign: not a capture'), (['bad'], 'bad: byte 16: 4d000000 begins no'),
                            (['none'], 'none: No such file'), (['good', 'good'], 'good is also the input'),
                            (['it.gz'], 'it.gz is packed: name an output, as in psxgpu mend it.gz whole.capture'),
                            (['good', '-'], '-: name a file')):
            before = {name: self.read(name) for name in os.listdir(self.folder)}
            done = self.mend(*words)
            self.assertEqual((done.returncode, done.stderr.count('\n')), (2, 1), done)
            self.assertIn('psxgpu mend: ' + said, done.stderr)
            self.assertEqual({name: self.read(name) for name in os.listdir(self.folder)}, before)

    def test_damaged(self):
        """The events before what is not a record are kept, in another file."""
        whole = c.Capture().gp0(1, 2).stat().read(2).bytes()
        good = c.Capture().gp0(1, 2).stat().bytes()
        for number, bad in enumerate((struct.pack('<I', 0x63000000), struct.pack('<I', 0x07000001),
                                      struct.pack('<II', 0x01000001, 2), struct.pack('<I', 1))):
            data = good[:-4] + bad + whole[len(good) - 4:]
            self.write('bad', data)
            with self.subTest(number):
                done = self.mend('bad')
                self.assertEqual((done.returncode, self.read('bad'), done.stderr.count('\n')), (2, data, 1))
                self.assertIn('begins no record of version 1: name an output for what is before it', done.stderr)
                done = self.mend('bad', 'out')
                self.assertEqual((done.returncode, self.read('out')), (0, good))
                self.assertEqual(done.stdout, 'made whole: all before byte 24: %08x begins no record of version 1\n'
                                 % struct.unpack('<I', bad[:4]))
                done = support.run_tool('first', '9', 'bad', 'out', cwd=self.folder)
                self.assertEqual((done.returncode, self.read('out')), (2, good))
                self.assertRegex(done.stderr, '^psxgpu first: bad: byte \d+: .*; the 3 events before it are kept\n$')
