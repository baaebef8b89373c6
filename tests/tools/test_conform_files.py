"""What conform writes, and what is released."""
import os
import re
import unittest
from unittest import mock

from tests.support import PLAYER, InFolder, needs_player

from suite_trials import agreement, mutants, sections
from suite_trials.faults import FAULTS, finds
from suite_trials.model import Model
from psxgpu.commands.conform import chosen
from psxgpu.conformance import folder, released
from psxgpu.conformance.judging import Judge
from psxgpu.stream import HEADS


class Written(InFolder):
    def test_captures_flat_captures_and_dumps(self):
        tests = chosen(['fills/size-and-color', 'tall/fills', 'dma/blocks'])
        lines = folder.write(tests, self.path('out'), None, True)
        self.assertEqual(lines, ['3 programs are left out', '1 flat captures are left out', '1 dumps are left out',
                                 '2 tests are in none of programs/'])
        data = self.read('out/captures/fills/size-and-color.capture')
        self.assertEqual(data, tests[0].data)
        self.assertEqual(self.read('out/flat/tall/fills.capture')[:8], HEADS[3])
        self.assertTrue(os.path.exists(self.path('out/dumps/fills/size-and-color.psxgpu')))
        self.assertFalse(os.path.exists(self.path('out/flat/dma/blocks.capture')))
        text = self.read('out/expected.tsv').decode()
        self.assertEqual(text, released.expectations(tests))

    @needs_player
    def test_flat_twins_of_dma(self):
        source = folder.Folder(self.folder, PLAYER)
        model, count = Model(), 0
        for test in chosen(['dma', 'turns']):
            flat = folder.in_version(source.flat(test), 1)
            if flat is not None:
                count += 1
                self.assertEqual(model.run('vram', flat).out, test.dump, test.full_name)
        self.assertGreater(count, 30)

    @needs_player
    def test_a_program_for_the_console(self):
        folder.write(chosen(['stores/odd-count']), self.path('out'), PLAYER, True)
        self.assertEqual(self.read('out/exe/stores/odd-count.exe')[:8], b'PS-X EXE')

    def test_an_expectation(self):
        fields = released.expectation(chosen(['stores/width-0-is-1024'])[0]).split('\t')
        self.assertEqual(fields[0::4], ['stores/width-0-is-1024', '-'])
        self.assertEqual(fields[6], '22221111 00000000*510 44443333')
        fields = released.expectation(chosen(['lines/size-511-drawn'])[0]).split('\t')
        self.assertEqual(fields[4], '0,511')


class Released(unittest.TestCase):
    def setUp(self):
        self.tests = chosen(['fills'])
        self.text = released.expectations(self.tests)

    def test_nothing_is_changed(self):
        self.assertEqual(released.changes(self.tests, self.text, {}), [])

    def test_a_changed_sum(self):
        name = self.tests[0].full_name
        line = released.expectation(self.tests[0])
        text = self.text.replace(line, line.replace(line.split('\t')[3], 64 * '0'))
        found = released.changes(self.tests, text, {})
        self.assertEqual(len(found), 1)
        self.assertTrue(found[0].startswith(name + ': vram was 0000'))

    def test_a_missing_test_is_withdrawn_by_name(self):
        name = self.tests[3].full_name
        rest = self.tests[:3] + self.tests[4:]
        self.assertEqual(released.changes(rest, self.text, {}), [name + ': released, but neither there nor withdrawn'])
        self.assertEqual(released.changes(rest, self.text, {name: 'wrong'}), [])

    def test_a_new_test(self):
        text = self.text.rsplit('\n', 2)[0] + '\n'
        self.assertEqual(released.changes(self.tests, text, {}), [self.tests[-1].full_name + ': not released yet'])


class Stored(unittest.TestCase):
    def test_every_section_has_a_chapter(self):
        self.assertEqual(list(sections.faults()), [])

    def test_a_section_without_a_chapter_is_named(self):
        with mock.patch.dict(sections.CHAPTERS_OF):
            del sections.CHAPTERS_OF['Fills']
            self.assertEqual(list(sections.faults()), ['MACHINE.md, Fills: a "Where" line without a chapter',
                                                       'chapter fills: without a section'])

    def test_survivors_are_changes_of_the_model(self):
        """Each change with a reason is one that the mutator makes, and the number of changes is that of the document."""
        with open(mutants.REASONS) as file:
            text = file.read()
        there = [name for owner in mutants.owners() for name, _ in mutants.changes(owner)]
        named = re.findall(r'^\| `(.*)` \| ', text, re.M)
        self.assertEqual([name for name in named if name not in there], [])
        self.assertIn('Of %d changes %d are seen, and the %d below' % (len(there), len(there) - len(named), len(named)), text)

    def test_a_score(self):
        tests = chosen(['fills/size-and-color', 'fills/x-rounded-down', 'stores/odd-count'])
        kinds = dict(zip((test.full_name for test in tests), (['passed', ''], ['error', ''], ['failed', ''])))
        self.assertEqual(agreement.score(tests, kinds), '1 of 3, 1 failed, 1 differ')

    def test_a_planted_fault_is_found(self):
        fault = next(one for one in FAULTS if one.name == 'a fill\'s X is not rounded')
        self.assertEqual([test.full_name for test in finds(fault, fault.chapters)], ['fills/x-rounded-down'])
        self.assertTrue(Judge(Model()).able >= {'vram', 'play', 'shot', 'dma', 'turns', 'tall'})
