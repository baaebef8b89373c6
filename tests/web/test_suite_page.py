"""The page of the conformance suite in Chromium and in Firefox, from the disk

`make web` comes first. All tests have to pass there, and a test whose expectation is changed has to fail."""
import base64
import json
import os
import unittest

from tests import support
from tests.web.browser import Browser, chromium
from tests.web.firefox import Firefox, firefox

from psxgpu.commands.conform import every_test
from psxgpu.conformance.released import COLUMNS
from psxgpu.stream import HEADS

WEB = os.path.join(support.TOP, 'web')
setUpModule = support.needs_built(os.path.join(WEB, 'out', 'conformance.html'), 'web')
LINES = "[...document.querySelectorAll('%s')].map(line => line.textContent)"
# A test, a column of its line, a value that is wrong, and what the page says.
WRONG = (
    ('fills/size-0', 'vram', 64 * '0', 'video memory differs'),
    ('stores/odd-count', 'words', '22221111 00004333', 'word 2 is 00003333, expected 00004333'),
    ('stores/odd-count', 'words', '22221111', '2 words are read, expected 1'),
    ('display/width-256', 'picture', '32x2:' + 64 * '0', 'the picture differs'),
    ('display/width-256', 'picture', 'none', 'the picture: expected none'),
    ('display/no-height', 'picture', '4x4:' + 64 * '0', 'the picture: expected 4x4:' + 64 * '0'))


class Page:
    """The tests in one browser."""

    @classmethod
    def setUpClass(cls):
        cls.browser = cls.start()
        cls.addClassCleanup(cls.browser.close)
        cls.browser.open(os.path.join(WEB, 'out', 'conformance.html'))

    def run_on(self, changes):
        """What the page says of tests with other expectations or captures: how many passed, and the lines of the others."""
        found = self.browser.evaluate('''(async () => run(%s.map(([name, column, value]) => {
            const test = { ...TESTS.find(one => one.expected.startsWith(name + '\\t')) };
            if (column < 0) return { ...test, capture: value };
            const fields = test.expected.split('\\t');
            fields[column] = value;
            return { ...test, expected: fields.join('\\t') };
        })))()''' % json.dumps(changes))
        return found['passed'], self.browser.evaluate(LINES % 'li.failed em')

    def test_all_pass(self):
        number = len(every_test())
        self.assertEqual(self.browser.evaluate('finished'), {'passed': number, 'tests': number})
        self.browser.evaluate('run(TESTS)')
        self.assertEqual(self.browser.evaluate(LINES % 'li.failed'), [])
        self.assertEqual(self.browser.evaluate(LINES % 'li a'), [test.name for test in every_test()])
        self.assertIn('%d of %d tests passed in' % (number, number), self.browser.evaluate(LINES % '#said')[0])

    def test_what_fails(self):
        changes = [(name, COLUMNS.index(column), value) for name, column, value, _ in WRONG]
        self.assertEqual(self.run_on(changes), (0, [said for *_, said in WRONG]))

    def test_ignored_cells_and_masks(self):
        """Cells that do not matter are set to 0, and a word is compared in the bits of its mask."""
        self.assertEqual(self.run_on([('lines/shaded', COLUMNS.index('ignored'), '-')]), (0, ['video memory differs']))
        words = COLUMNS.index('words')
        self.assertEqual(self.run_on([('stores/odd-count', words, '22221111 ffff3333/0000ffff')]), (1, []))

    def test_a_refused_capture(self):
        capture = base64.b64encode(HEADS[1]).decode()
        self.assertEqual(self.run_on([('fills/size-0', -1, capture)]), (0, ['psxgpu: truncated at event 1 byte 8']))


@unittest.skipUnless(chromium(), 'no Chromium')
class InChromium(Page, unittest.TestCase):
    start = Browser


@unittest.skipUnless(firefox(), 'no Firefox')
class InFirefox(Page, unittest.TestCase):
    start = Firefox
