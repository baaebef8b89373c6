"""Folders in which captures are packed, and GPU dumps."""
import gzip
import lzma
import os

from tests.tools.corpus_support import Corpus, film
from tests.tools.dumps_support import HAND_MADE
from psxgpu.corpus.sums import read_sums


class Packed(Corpus):
    def test_record_and_check(self):
        """A packed file has its own bytes and sum, and the frames of what it holds."""
        data = film().bytes()
        self.write('in/a.capture', data)
        self.write('in/b.capture.gz', gzip.compress(data))
        self.write('in/deep/c.cap.xz', lzma.compress(data))
        self.write('in/d.txt.gz', gzip.compress(data))
        self.write('in/e.gz', gzip.compress(data))
        self.expect(0, '3 captures: 3 played\n', '', 'record', 'in', '--golden', 'golden', '--player', './small')
        rows = read_sums(self.path('golden')).rows
        self.assertEqual(list(rows), ['a.capture', 'b.capture.gz', 'deep/c.cap.xz'])
        self.assertEqual(rows['b.capture.gz'].size, os.path.getsize(self.path('in/b.capture.gz')))
        self.assertEqual([(row.frames, row.vram, row.words) for row in rows.values()],
                         3 * [(rows['a.capture'].frames, rows['a.capture'].vram, rows['a.capture'].words)])
        self.expect(0, '3 captures: 3 same\n', '', 'check', 'in', '--golden', 'golden', '--player', './small')
        done = self.check('--player', './small --wrong', '--reference', './small')
        self.assertEqual(done.stdout.count('first packet: 8 fill 0200003e -\n'), 3, done)

    def test_dumps(self):
        self.write('in/a.psxgpu', HAND_MADE)
        self.write('in/b.psxgpu.gz', gzip.compress(HAND_MADE))
        self.expect(0, '2 captures: 2 played\n', '', 'record', 'in', '--golden', 'golden', '--player', './small',
                    '--marks')
        for row in read_sums(self.path('golden')).rows.values():
            self.assertEqual([frame.event for frame in row.frames], [13, 22])
            self.assertEqual(row.words[0], 3)

    def test_damaged(self):
        """One is a row of the file, and does not end the run."""
        self.save('in/a.capture')
        self.write('in/b.psxgpu', HAND_MADE[:100])
        self.write('in/c.capture.gz', gzip.compress(film().bytes())[:-9])
        self.expect(0, '3 captures: 1 played, 2 refused\n', '', 'record', 'in', '--golden', 'golden', '--player',
                    './small')
        ends = {name: row.end for name, row in read_sums(self.path('golden')).rows.items()}
        self.assertEqual(ends['b.psxgpu'], 'refused 2 b.psxgpu: byte 100: the dump ends inside a packet, which begins '
                                           'at byte 90')
        self.assertRegex(ends['c.capture.gz'], '^refused 2 c.capture.gz: damaged: Compressed file ended')
        self.expect(0, '3 captures: 3 same\n', '', 'check', 'in', '--golden', 'golden', '--player', './small')

    def test_split(self):
        self.write('in/a.capture.gz', gzip.compress(film().bytes()))
        self.expect(2, '', 'psxgpu corpus: in/a.capture.gz: 2 frames, too few for 9 parts', 'split',
                    'in/a.capture.gz', '--parts', '9', '--into', 'parts', '--player', './small')
