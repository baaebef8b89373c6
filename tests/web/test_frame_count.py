"""The count of frames of web/out/index.html is that of the tools: python3 -m tests.web.test_frame_count, after `make web`."""
import base64
import json
import os
import subprocess
import unittest

from tests import support
from tests.tools.test_frame_numbers import recording
from tests.web.browser import Browser

PAGE = os.path.join(support.TOP, 'web', 'out', 'index.html')

setUpModule = support.needs_built(PAGE, 'web')


class Counts(unittest.TestCase):
    @classmethod
    def setUpClass(cls):
        cls.page = cls.enterClassContext(Browser())
        cls.page.open(PAGE)

    def count(self, data):
        """What the page says after a capture is opened."""
        text = json.dumps(base64.b64encode(data).decode())
        return self.page.evaluate('page.ready.then(async () => { await page.open(new Blob([Uint8Array.from(atob(%s), '
                                  'letter => letter.charCodeAt(0))]), "a"); return page.element("count").textContent; })'
                                  % text)

    def test_made(self):
        for flips, rest, count in ((3, False, 3), (3, True, 4), (0, True, 1), (0, False, 1)):
            self.assertEqual(self.count(recording(flips, rest)), 'frame %d of %d' % (count, count))

    def test_examples(self):
        """A snapshot, too: after event 26, the third flip, flips has one frame."""
        for name, count in (('flips', 4), ('smear', 1), ('textured-frame', 2), ('turns', 1)):
            with open(support.example(name), 'rb') as file:
                self.assertEqual(self.count(file.read()), 'frame %d of %d' % (count, count))
        with open(support.example('flips'), 'rb') as file:
            snapshot = subprocess.run([support.PLAYER, 'cut', '26'], stdin=file, capture_output=True, check=True).stdout
        self.assertEqual(self.count(snapshot), 'frame 1 of 1')
