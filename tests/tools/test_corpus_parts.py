"""Recordings cut into parts, and what was written on each of them joined."""
import os

from tests.tools.corpus_support import Corpus, film
from psxgpu import capture as c
from psxgpu.corpus.scan import MARK, copy_first, frames, reads_before


class Scan(Corpus):
    def test_events(self):
        film().stat().save(self.path('a.capture'))
        self.assertEqual(frames(self.path('a.capture')), ([5, 10, 15], 16))
        self.assertEqual(frames(self.path('a.capture'), MARK), ([], 16))
        self.assertEqual(reads_before(self.path('a.capture'), [3, 4, 5, 15, 16, 20]), [0, 1, 1, 3, 4, 4])

    def test_first_events(self):
        capture = c.Capture(2).ram(0x100, 1, 2, 3).gp0(4, 5).gp1(6).read(3).stat()
        capture.save(self.path('a.capture'))
        for n in range(11):
            with open(self.path('part'), 'wb') as file:
                copy_first(self.path('a.capture'), n, file)
            with open(self.path('part'), 'rb') as file:
                version, found = c.records(file.read())
            self.assertEqual((version, list(c.events(found))), (2, list(c.events(c.records(capture.bytes())[1]))[:n]))


class Parts(Corpus):
    def glued(self, word, *parts):
        names = []
        for part in parts:
            names.append('part%d' % len(names))
            self.write(names[-1], part)
        return self.corpus('glue', word, *names)

    def test_glue(self):
        cases = [('play', ('00000001\nstatus 14802000\n', 'status 14802001\n'), '00000001\nstatus 14802001\n'),
                 ('list', ('1 nop 00000000 -\n', '2 nop 00000000 -\n'), '1 nop 00000000 -\n2 nop 00000000 -\n'),
                 # The frame at the end is the one after the last event once more.
                 ('sums', ('3 2 1 aa\n3 2 1 aa\nvram bb\n', '4 2 1 cc\nvram dd\n'), '3 2 1 aa\n4 2 1 cc\nvram dd\n'),
                 # Nothing is shown at the end: the last frame is one of an earlier event.
                 ('sums', ('1 2 1 aa\n3 2 1 aa\nvram bb\n', 'vram dd\n'), '1 2 1 aa\n3 2 1 aa\nvram dd\n'),
                 ('frames', ('P6\n1 1\n255\nabcP6\n1 1\n255\nabc', 'P6\n1 1\n255\ndef'),
                  'P6\n1 1\n255\nabcP6\n1 1\n255\ndef')]
        for word, parts, whole in cases:
            done = self.glued(word, *[part.encode() for part in parts])
            self.assertEqual((done.stdout, done.stderr, done.returncode), (whole, '', 0))

    def test_glue_of_others(self):
        for word, part in (('play', b''), ('play', b'00000000\n'), ('sums', b'1 2 1 aa\n'),
                           ('frames', b'P6\n1 1\n255\n')):
            done = self.glued(word, part, b'')
            self.assertEqual((done.returncode, done.stdout), (2, ''))
            self.assertRegex(done.stderr, '^psxgpu corpus: part0: not what `%s` writes: ' % word)

    def test_glue_in_order(self):
        """The numbers of the names, and the events of `list` and `sums`."""
        for number in (1, 2, 3):
            self.write('%03d.capture.play' % number, b'00000001\nstatus 14802000\n')
            self.write('list%d' % number, b'%d nop 00000000 -\n' % number)
        self.write('x.play', b'status 14802000\n')
        names = ['%03d.capture.play' % number for number in (1, 2, 3)]
        self.expect(0, '00000001\n' * 3 + 'status 14802000\n', '', 'glue', 'play', *names)
        for some, text in ((names[1:], '002.capture.play: part 2, expected part 1: one is missing, or they'),
                           (names[::2], '003.capture.play: part 3, expected part 2'),
                           ([names[1], names[0], names[2]], '002.capture.play: part 2, expected part 1'),
                           (names[:2], '003.capture.play: part 3 is missing'),
                           ([names[0], 'x.play'],
                            'x.play: its name does not begin with the number of its part, as 002.')):
            done = self.corpus('glue', 'play', *some)
            self.assertEqual((done.returncode, done.stderr.count('\n')), (2, 1))
            self.assertIn(text, done.stderr)
        self.expect(0, '1 nop 00000000 -\n2 nop 00000000 -\n', '', 'glue', 'list', 'list1', 'list2')
        done = self.corpus('glue', 'list', 'list2', 'list1')
        self.assertEqual(done.returncode, 2)
        self.assertIn('list1: event 1, after event 2 of the parts before it: not in order', done.stderr)

    def test_split_of_others(self):
        """A cut capture is named with its length, a snapshot is refused, and no part is left."""
        film().save(self.path('a.capture'))
        self.write('cut.capture', self.read('a.capture')[:-10])
        self.write('a.snapshot', b'PSXGPUS1' + bytes(100))
        for name, text in (('cut.capture', 'cut at byte %d' % len(self.read('cut.capture'))),
                           ('a.snapshot', 'a snapshot: `split` takes a capture')):
            self.expect(2, '', '%s: %s' % (name, text), 'split', name, '--parts', '2', '--into', 'parts', '--player',
                        './small')
            self.assertFalse(os.path.exists(self.path('parts')))

    def test_too_few_frames(self):
        film(1).save(self.path('a.capture'))
        self.expect(2, '', 'a.capture: 0 frames, too few for 2 parts', 'split', 'a.capture', '--parts', '2', '--into',
                    'parts', '--player', './small')
        self.expect(2, '', 'small: not a capture', 'split', 'small', '--parts', '2', '--into', 'parts', '--player',
                    './small')
