"""What conform says of failures, and known failures."""
import json
import os
import unittest
import xml.etree.ElementTree

from tests.support import InFolder
from tests.tools.test_conform import Fixed, conform_of

from suite_trials.model import Model
from psxgpu.commands.conform import chosen, every_test
from psxgpu.conformance.answers import lack, lacks
from psxgpu.conformance.subject import MOST_LINES, subject_lines
from psxgpu.players.named import Done

NO_PADDING = {'padding': lambda m: 0xFFFF}                              # differs: stores/odd-count
NO_DITHER = {'dither': lambda m, x, y: 0}                               # fails: dither/table and others


class Lines(unittest.TestCase):
    def lines(self, name):
        return subject_lines(chosen([name])[0])

    def test_packets_and_their_fields(self):
        self.assertEqual(self.lines('copies/bits-above'), [
            'copy 80000000 fe04fc0a fe09fc14 fe01fc02 | source (10, 4), target (20, 9), size 2 by 1'])
        self.assertEqual(
            self.lines('mask/forces-bit-15')[0],
            'rectangle 600000ff 00000000 00010002 | corner (0, 0), size 2 by 1; colour 255 0 0; mask setting 1')

    def test_control_words_dma_and_what_is_not_whole(self):
        self.assertEqual(self.lines('status/23-display-off'),
                         ['gp1 03ffffff | display off', 'gp1 03fffffe | display on'])
        self.assertEqual(self.lines('dma/blocks')[-1], 'dma 2 00001000 00030002 01000201')
        self.assertEqual(self.lines('status/bit-28-in-a-packet'), ['20000000 00000000'])

    def test_every_test_has_lines(self):
        """Each test but those of the state at first, which have no word."""
        for test in every_test():
            lines = subject_lines(test)
            self.assertLessEqual(len(lines), MOST_LINES + 1)
            self.assertTrue(all(lines) or test.name == 'at-first', test.full_name)
            self.assertLess(max(map(len, lines)), 500)

    def test_bits_and_pixels(self):
        _, out, _ = conform_of(Model(status=lambda m: 0x10802000), '--only', 'status/bit-26-in-a-packet')
        self.assertIn('word 2 of 2: yours 10802000, expected 04000000 in the bits 04000000 (bit 26)\n', out)
        _, out, _ = conform_of(Model(wide=lambda m, channel: 8 * channel), '--only', 'display/fifteen-bits')
        self.assertIn('pixel (1, 0) of the picture: yours 248 0 0, expected 255 0 0\n', out)
        _, out, _ = conform_of(Model(is_doubled=lambda m: False), '--only', 'display/doubled')
        self.assertIn('the picture: yours 8 by 3, expected 8 by 6\n', out)


class Lacks(unittest.TestCase):
    def test_reasons(self):
        for mode, done, text in (('vram', Done(1, b'', b'usage'), 'status 1, usage'),
                                 ('vram', Done(0, b'12', b''), '2 bytes, expected 1048576'),
                                 ('play', Done(0, b'', b''), '0 words for one read of the status'),
                                 ('play', Done(0, b'word\n', b''), "play: 'word' is not a word"),
                                 ('shot', Done(0, b'P5 1 1 255 ', b''), 'shot: a picture of the kind P5, and not P6'),
                                 ('shot', Done(None, b'', b''), 'no end in time')):
            self.assertEqual(lack(mode, done, False), text)
        self.assertEqual(set(lacks(Model(), 20).values()), {''})
        self.assertEqual(lacks(Fixed(Done(2, b'', b'no')), 20)['tall'], 'status 2, no')


class Known(InFolder):
    ONLY = ['--only', 'dither', '--only', 'stores', '--only', 'fills/size-0']

    def keep(self, **changes):
        """Writes the known failures of a model with these changes."""
        conform_of(Model(**changes), *self.ONLY, '--quiet', '--keep-expected', self.path('known.json'))

    def run_it(self, *words, **changes):
        return conform_of(Model(**changes), *self.ONLY, '--expect', self.path('known.json'), *words)

    def test_exactly_the_known_tests(self):
        self.keep(**NO_DITHER)
        known = json.loads(self.read('known.json'))
        self.assertEqual({kind for kind, _ in known.values()} - {'differs'}, {'failed'})
        self.assertIn('dither/table', known)
        status, out, _ = self.run_it(**NO_DITHER)
        self.assertEqual((status, out.split('\n')[1][:9]), (0, '| chapter'))
        self.assertRegex(out, r'^known: \d+ failed')
        self.assertEqual(self.run_it('--strict', **NO_DITHER)[0], 0)

    def test_another_one_fails(self):
        self.keep(**NO_PADDING)
        status, out, _ = self.run_it(**NO_PADDING, **NO_DITHER)
        self.assertEqual(status, 1)
        self.assertIn('failed  dither/table: ', out)
        self.assertNotIn('stores/odd-count', out)
        self.keep(**NO_DITHER)
        self.assertEqual(self.run_it(**NO_PADDING, **NO_DITHER)[0], 0)
        self.assertEqual(self.run_it('--strict', **NO_PADDING, **NO_DITHER)[0], 1)

    def test_a_known_one_passes_now(self):
        self.keep(**NO_PADDING, **NO_DITHER)
        status, out, _ = self.run_it(**NO_DITHER)
        self.assertEqual(status, 0)
        self.assertIn('passes now: stores/odd-count\n', out)

    def test_a_crash_of_a_known_one_and_a_test_that_is_no_longer_taken(self):
        class NoWords(Model):
            def run(self, mode, data, seconds=None):
                return Done(1, b'', b'usage') if mode == 'play' else super().run(mode, data, seconds)
        self.keep(**NO_DITHER)
        status, out, _ = conform_of(NoWords(**NO_DITHER), *self.ONLY, '--expect', self.path('known.json'))
        self.assertEqual(status, 1)
        self.assertIn('not taken: ', out)

        class Breaks(Model):
            def run(self, mode, data, seconds=None):
                return Done(-11, b'', b'') if len(data) > 100 else super().run(mode, data, seconds)
        self.assertEqual(conform_of(Breaks(), *self.ONLY, '--expect', self.path('known.json'))[0], 2)

    def test_a_file_of_json_is_one_too(self):
        conform_of(Model(**NO_DITHER), *self.ONLY, '--json', self.path('known.json'))
        self.assertEqual(self.run_it(**NO_DITHER)[0], 0)

    def test_bad_files(self):
        for text in ('', '[1]', '{"a": 1}', '{"a": ["lost"]}', '{"a": []}', '7', '"a"', '\udce9'):
            self.write('known.json', text.encode('utf-8', 'surrogateescape'))
            status, _, err = self.run_it()
            self.assertEqual((status, err.count('\n')), (2, 1), text)
            self.assertIn('known.json: ', err)
        os.remove(self.path('known.json'))
        self.assertEqual(self.run_it()[0], 2)

    def test_the_known_failures_are_no_output(self):
        self.keep(**NO_DITHER)
        before = self.read('known.json')
        for option in ('--keep-expected', '--json', '--junit', '--page'):
            status, _, err = self.run_it(option, self.path('known.json'))
            self.assertEqual((status, err.count('\n')), (2, 1))
            self.assertIn('is also the input', err)
        self.assertEqual(self.read('known.json'), before)

    def test_junit_has_the_rule(self):
        conform_of(Model(**NO_DITHER), '--only', 'dither/table', '--junit', self.path('out.xml'))
        failure = next(xml.etree.ElementTree.parse(self.path('out.xml')).getroot().iter('failure'))
        self.assertIn(chosen(['dither/table'])[0].says, failure.text)
        self.assertIn('polygon 38474747', failure.text)
