"""The viewer in Firefox, if it is installed: python3 -m tests.viewer.test_firefox, after `make web`.

What it shows is the program's, and stepping and the history do what they do in Chromium."""
import base64
import hashlib
import json
import os
import tempfile
import time
import unittest

from tests import support
from tests.viewer.page import EXAMPLES, HERE, PAGE, examples, program
from tests.viewer.pages import SEEN, loosened, made, show
from tests.viewer.recordings import two_buffers

from tests.web.firefox import Firefox, firefox

setUpModule = support.needs_built(PAGE, 'viewer')


def sum_of(data):
    """Returns the sum of bytes, as the page has it."""
    return hashlib.sha256(data).hexdigest()


@unittest.skipUnless(firefox(), 'Firefox is not installed (Debian: firefox-esr)')
class InFirefox(unittest.TestCase):
    @classmethod
    def setUpClass(cls):
        cls.page = cls.enterClassContext(Firefox())
        cls.folder = cls.enterClassContext(tempfile.TemporaryDirectory())
        cls.page.open(loosened(PAGE, cls.folder))
        with open(os.path.join(HERE, 'probe.js'), encoding='utf-8') as file:
            cls.page.define(file.read())
        cls.page.evaluate('probe.begin()')

    def load(self, data, name='a.capture'):
        text = base64.b64encode(data).decode()
        return self.page.evaluate('probe.open(%s, %s)' % (json.dumps(name), json.dumps(text)))

    def press(self, key):
        self.page.evaluate('document.body.dispatchEvent(new KeyboardEvent("keydown", { key: %s, bubbles: true }))'
                           % json.dumps(key))

    def test_what_it_shows_is_the_programs(self):
        """Lists, and video memory and picture at the end; what the program refuses is refused in its words."""
        seen = 0
        for name, data in examples():
            refused = program('vram', data=data)[1]
            with self.subTest(name):
                self.assertEqual(self.load(data, name), '%s: %s' % (name, refused) if refused else True)
                if refused:
                    continue
                seen += 1
                self.page.evaluate('probe.app.seek(1e12)')
                self.assertEqual(self.page.evaluate('probe.memory()'), sum_of(program('vram', data=data)[0]))
                shot, none = program('shot', data=data)
                self.assertEqual(self.page.evaluate('probe.picture()'), None if none else sum_of(shot))
                self.assertEqual(self.page.evaluate('probe.list()'), program('list', data=data)[0].decode())
        self.assertGreater(seen, 4)
        self.assertEqual(self.load(b'PSXGPUC9', 'bad'), 'bad: ' + program('play', data=b'PSXGPUC9')[1])

    def test_stepping_and_history(self):
        self.assertEqual(self.load(two_buffers()), True)
        sums = []
        for _ in range(4):
            self.press('ArrowLeft')
            sums.append(self.page.evaluate('probe.viewSum()'))
        self.assertTrue(all(now != before for before, now in zip(sums, sums[1:])))
        self.assertEqual(self.page.evaluate('probe.viewer.views.name'), 'drawn')
        lines = program('pixel', '90', '40', data=two_buffers())[0].decode()
        self.assertEqual(self.page.evaluate('probe.pixel(90, 40)'), lines)

    def test_no_fault_was_told(self):
        self.assertNotIn('A fault', self.page.evaluate('document.getElementById("said").textContent'))


@unittest.skipUnless(firefox(), 'Firefox is not installed (Debian: firefox-esr)')
class PagesInFirefox(unittest.TestCase):
    """Pages with a recording inside."""

    @classmethod
    def setUpClass(cls):
        cls.page = cls.enterClassContext(Firefox())
        cls.folder = cls.enterClassContext(tempfile.TemporaryDirectory())

    def test_under_its_own_policy(self):
        """It opens without a script of the test: what the page says is read from outside."""
        flips = os.path.join(EXAMPLES, 'flips.capture')
        self.page.open(made(self.folder, flips, '--at', '20', '--note', 'a </script> note'))
        script = ('return ["event", "note", "said"].map(id => document.getElementById(id))'
                  '.map(it => it.value ?? it.textContent)')
        for _ in range(500):
            seen = self.page.call('WebDriver:ExecuteScript', script=script, args=[])['value']
            if seen[0] == '20':
                break
            time.sleep(0.02)
        self.assertEqual(seen, ['20', 'a </script> note', ''])

    def test_places(self):
        data = two_buffers()
        path = os.path.join(self.folder, 'a.capture')
        with open(path, 'wb') as file:
            file.write(data)
        page = made(self.folder, path, '--at', '9', '--view', 'memory', '--cell', '90,40')
        show(self.page, loosened(page, self.folder))
        self.assertEqual(self.page.evaluate(SEEN), ['a.capture', '9', 'memory', [90, 40], '', ''])
        self.assertEqual(self.page.evaluate('probe.pixel(90, 40)'), program('pixel', '90', '40', data=data)[0].decode())

    def test_saved_by_the_viewer(self):
        """The text that is saved is a page with the same recording."""
        show(self.page, loosened(made(self.folder, os.path.join(EXAMPLES, 'flips.capture'), '--at', '20'), self.folder))
        text = self.page.evaluate('module_cases.pageOfThis(probe.app, probe.viewer.views)')
        path = os.path.join(self.folder, 'saved.html')
        with open(path, 'w', encoding='utf-8') as file:
            file.write(text)
        show(self.page, path)
        self.assertEqual(self.page.evaluate(SEEN)[:2], ['flips.capture', '20'])
