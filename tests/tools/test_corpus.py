"""Folders of captures, recorded and checked."""
import os
import re
from xml.etree import ElementTree

from tests import support
from tests.tools.corpus_support import Corpus, film
from psxgpu.capture import GP0, records
from psxgpu.corpus.sums import read_sums


class Same(Corpus):
    def test_record_and_check(self):
        self.two()
        self.record()
        sums = read_sums(self.path('golden'))
        self.assertEqual(sorted(sums.rows), ['a.capture', 'deep/b.capture'])
        row = sums.rows['a.capture']
        self.assertEqual([frame.event for frame in row.frames], [5, 10, 15])
        self.assertEqual(row.words[0], 4)
        self.assertEqual(len({frame.words for frame in row.frames}), 3)
        self.assertNotIn('-', [frame.words for frame in row.frames])
        self.assertEqual(self.check().stdout,
                         '2 captures: 2 same\n')
        self.assertEqual(ElementTree.fromstring(self.text('corpus-report/junit.xml')).get('tests'), '2')
        self.assertFalse(os.path.exists(self.path('corpus-report/played.sums.part')))

    def test_marks(self):
        film(3, (0x3F000000,)).save(self.path('in/a.capture'))
        self.expect(0, '1 capture: 1 played\n', '', 'record', 'in', '--golden', 'golden', '--player', './small',
                    '--marks')
        sums = read_sums(self.path('golden'))
        self.assertEqual(sums.gives, ('marks', 'vram', 'words'))
        self.assertEqual([frame.event for frame in sums.rows['a.capture'].frames], [5, 10, 15])
        self.assertEqual(self.check().stdout, '1 capture: 1 same\n')

    def test_join(self):
        self.two()
        self.record()
        for name, sums in ('a.capture', '../a.sums'), ('deep/b.capture', '../b.sums'):
            self.expect(0, '1 capture: 1 played\n', '', 'record', name, '--golden', sums, '--player', '../small',
                        cwd='in')
        self.expect(0, '2 captures\n', '', 'join', 'a.sums', 'b.sums', '--golden', 'joined')
        self.assertEqual(self.text('joined'), self.text('golden'))


class Differs(Corpus):
    def test_first_packet(self):
        self.two()
        self.record()
        self.expect(1, '''different a.capture
    frame 2 of 3 (event 10), after event 5
    video memory after the end
    first packet: 8 fill 0200003e -
    first differing cell: (16, 8): the player 0000, the reference 003e
    cells that differ: 16
    their box: 16 8 31 8
    by steps: 16 to 31: 16
different deep/b.capture
    frame 2 of 3 (event 10), after event 5
    video memory after the end
    first packet: 8 fill 0200003e -
    first differing cell: (16, 8): the player 0000, the reference 003e
    cells that differ: 16
    their box: 16 8 31 8
    by steps: 16 to 31: 16
2 captures: 0 same, 2 different
''', '', 'check', 'in', '--golden', 'golden', '--player', './small --wrong', '--reference', './small')
        suite = ElementTree.fromstring(self.text('corpus-report/junit.xml'))
        self.assertEqual([suite.get('failures'), suite.get('errors')], ['2', '0'])
        self.assertEqual(suite[1].get('classname'), 'deep')
        self.assertIn('event 10', suite[1][0].get('message'))
        page = self.text('corpus-report/report.html')
        self.assertEqual(re.findall('<img alt="([^"]*)" width="([0-9]*)"', page), 2 * [
            ('video memory of the player from (8, 0)', '256'), ('video memory of the reference from (8, 0)', '256'),
            ('what differs, in red', '256')])

    def test_rows_that_are_faults(self):
        for name in ('crash', 'good', 'hang', 'killed', 'no'):
            self.write('in/%s.capture' % name, name + '\n')
        self.expect(1, '5 captures: 1 crashes, 1 hangs, 2 played, 1 refused\n', '', 'record', 'in', '--golden',
                    'golden', '--player', './moody', '--limit', '5')
        ends = {name: row.end for name, row in read_sums(self.path('golden')).rows.items()}
        self.assertEqual(ends, {'crash.capture': 'crashes SIGSEGV', 'good.capture': 'played', 'hang.capture': 'hangs 5',
                                'killed.capture': 'played', 'no.capture': 'refused 2 moody: no'})

    def test_other_captures(self):
        self.two()
        self.record()
        film(2).save(self.path('in/a.capture'))
        os.rename(self.path('in/deep/b.capture'), self.path('in/c.capture'))
        self.assertEqual(self.check().stdout, '''changed a.capture
    another file: 68 bytes, recorded: 96
unrecorded c.capture
    the file of sums has no such capture
missing deep/b.capture
    the folder has no such capture
3 captures: 0 same, 1 changed, 1 missing, 1 unrecorded
''')

    def test_other_words(self):
        self.write('mute', '#!/bin/sh\nif [ "$1" = play ]; then ./small play | sed 2s/2/7/; else ./small "$1"; fi\n')
        os.chmod(self.path('mute'), 0o755)
        self.save('in/a.capture')
        self.expect(0, '1 capture: 1 played\n', '', 'record', 'in', '--golden', 'golden', '--player', './small')
        self.expect(1, '''different a.capture
    frame 2 of 3 (event 10), after event 5
    the picture is the same there, the words read are not
    words read, of 4 lines
    after event 10 video memory is the same
    first differing word: line 2: the player 00000007, the reference 00000002
1 capture: 0 same, 1 different
''', '', 'check', 'in', '--golden', 'golden', '--player', './mute', '--reference', './small')

    def test_refused_now(self):
        self.two()
        self.record()
        self.write('golden', self.text('golden').replace('end played', 'end refused 2 small: no'))
        self.assertIn('different a.capture\n    played now\n    recorded: refused 2 small: no\n', self.check().stdout)


# A player that writes 1Eh for each byte 1Fh of a dump, and knows no sums.
WRONG = '#!/bin/sh\n[ "$1" = sums ] && exit 1\n%s "$@" | tr "\\037" "\\036"\n' % support.PLAYER


@support.needs_player
class Reduced(Corpus):
    def test_reduce(self):
        """A regression arrives as the smallest capture that shows it, and the report says what it is."""
        film(4).save(self.path('in/a.capture'))     # the fourth colour is F8h: 001Fh in a cell
        os.chmod(self.write('wrong', WRONG), 0o755)
        self.expect(0, '1 capture: 1 played\n', '', 'record', 'in', '--golden', 'golden', '--player', support.PLAYER)
        check = 'check', 'in', '--golden', 'golden', '--player', './wrong', '--gives', 'vram', '--reduce'
        done = self.corpus(*check, '--reference', support.PLAYER)
        lines = [line.strip() for line in done.stdout.splitlines()]
        self.assertEqual((done.returncode, lines[0], lines[-1]),
                         (1, 'different a.capture', '1 capture: 0 same, 1 different'), done)
        at = lines.index('reduced: 1 packet, 3 words: corpus-report/a.capture')
        self.assertEqual(lines[at + 1], 'fill: corner (0, 0), size 16 by 1; colour 248 0 0')
        self.assertEqual(records(self.read('corpus-report/a.capture'))[1],
                         [(GP0, 3, [0x020000F8, 0, 0x00010001])])     # a width of 1 is 16
        self.assertEqual(self.read('corpus-report/a.png')[:4], b'\x89PNG')
        linked = re.findall('<a href="([^"]*)">', self.text('corpus-report/report.html'))
        self.assertEqual(linked[0], 'a.capture')
        self.assertTrue(all(os.path.exists(self.path('corpus-report/' + name)) for name in linked))
        self.expect(2, '', '--reduce needs --reference', *check)
