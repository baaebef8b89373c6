"""A recording that grows, in Chromium: python3 -m tests.viewer.test_following, after `make web`."""
import base64
import contextlib
import hashlib
import os
import pathlib
import random
import signal
import subprocess
import sys
import tempfile
import unittest

from tests import support
from tests.viewer.page import HERE, PAGE, Page, program
from tests.viewer.recordings import covered, two_buffers

setUpModule = support.needs_built(PAGE, 'viewer')


@contextlib.contextmanager
def followed(path):
    """The tool that follows a file, and the address of its page."""
    environment = dict(os.environ, PYTHONPATH=support.TOP)
    words = [sys.executable, '-m', 'psxgpu', 'view', '--follow', path, '--print', '--viewer', PAGE]
    with subprocess.Popen(words, env=environment, stdout=subprocess.PIPE, stderr=subprocess.PIPE, text=True) as tool:
        try:
            yield tool, tool.stdout.readline().strip()
        finally:
            tool.kill()


def show(page, address):
    """Opens the page of a tool."""
    page.call('Page.navigate', url=address)
    page.until('document.readyState === "complete" && Boolean(window.viewer)')
    with open(os.path.join(HERE, 'probe.js'), encoding='utf-8') as file:
        page.define(file.read())
    page.evaluate('probe.begin()')


class Following(unittest.TestCase):
    @classmethod
    def setUpClass(cls):
        cls.page = cls.enterClassContext(Page())

    def setUp(self):
        self.folder = self.enterContext(tempfile.TemporaryDirectory())
        self.file = os.path.join(self.folder, 'game.capture')

    def write(self, data, how='ab'):
        with open(self.file, how) as file:
            file.write(data)

    def line(self):
        return self.page.text('#growing-text')

    def until_line(self, text):
        """Waits until the line about the file is this one."""
        self.page.until('document.getElementById("growing-text").textContent === %r' % text)

    def begin(self, data):
        """Follows a file that has these bytes. Returns the tool."""
        self.write(data, 'wb')
        tool, address = self.enterContext(followed(self.file))
        show(self.page, address)
        return tool

    def picture(self, data):
        """Waits for the picture that the program makes of a capture."""
        shot, refused = program('shot', data=data)
        self.assertEqual(refused, '')
        self.page.until('(async () => await probe.picture() === "%s")()' % hashlib.sha256(shot).hexdigest())

    def test_a_writer_in_pieces(self):
        """Pieces of random sizes, which stop inside of words; in between, the newest whole frame is shown."""
        data, at = two_buffers(12), random.Random(1)
        self.begin(data[:5])
        self.until_line('waiting for game.capture')
        done = 5
        while done < len(data) - 4:
            count = min(at.randrange(1, 90), len(data) - 4 - done)
            self.write(data[done:done + count])
            done += count
        self.until_line('game.capture is growing: 13 frames, 209 events')
        self.picture(data)
        self.write(data[-4:])
        self.until_line('game.capture has ended: 13 frames, 209 events')
        self.picture(data)
        self.assertEqual(self.page.ask('list'), program('list', data=data)[0].decode())
        self.assertEqual(self.page.text('#said'), '')
        saved = self.page.evaluate('module_cases.pageOfThis(probe.app, probe.viewer.views)')
        self.assertEqual((saved.count("'none'; connect-src"), saved.count("default-src 'none'; script-src")), (0, 1))

    def test_a_place_stays_and_another_file_is_read_anew(self):
        data, other = two_buffers(12), covered()
        tool = self.begin(data[:303])
        self.until_line('game.capture is growing: 4 frames, 54 events')
        self.page.evaluate('probe.app.seek(20)')
        self.write(data[303:-4])
        self.until_line('game.capture is growing: 13 frames, 209 events')
        self.assertEqual(self.page.evaluate('[probe.app.at, document.getElementById("time").max]'), [20, '209'])
        self.page.click('#last-frame')
        self.page.until('probe.app.at === 209')
        self.write(other, 'wb')
        self.page.until('document.getElementById("said").textContent.includes("another file now, or shorter")')
        self.picture(other)
        tool.send_signal(signal.SIGINT)
        self.assertEqual(tool.wait(60), 128 + signal.SIGINT)
        self.page.until('document.getElementById("growing-text").textContent.includes("psxgpu view has ended")')

    def test_read_on(self):
        """A file that the reader chooses again when it has grown, in a page that no server gives."""
        data = two_buffers(12)
        self.page.open(PAGE)
        show(self.page, pathlib.Path(PAGE).resolve().as_uri())
        self.write(data[:303], 'wb')
        self.page.choose('#open', self.file)
        self.page.until('document.getElementById("said").textContent.includes("truncated")')
        self.page.click('#said button')
        self.until_line('game.capture has no end yet: 4 frames, 54 events')
        for size, line in ((700, 'game.capture is growing: 9 frames, 130 events'),
                           (len(data), 'game.capture has ended: 13 frames, 209 events')):
            self.write(data[:size], 'wb')
            self.page.choose('#read-on-file', self.file)
            self.page.until('document.getElementById("growing-text").textContent.startsWith(%r)' % line[:24])
        self.until_line(line)
        self.picture(data)

    def test_a_handle(self):
        """A file that the browser may look at again is followed. A stand-in gives the handle: no reader is here to choose."""
        data = two_buffers(12)
        show(self.page, pathlib.Path(PAGE).resolve().as_uri())
        give = 'window.now = Uint8Array.from(atob("%s"), letter => letter.charCodeAt(0)); 0'
        self.page.evaluate(give % base64.b64encode(data[:303]).decode())
        self.page.evaluate('window.showOpenFilePicker = async () => '
                           '[{ getFile: async () => new File([window.now], "game.capture") }]; 0')
        self.page.click('#open')
        self.page.until('document.getElementById("said").textContent.includes("truncated")')
        self.page.click('#said button')
        self.until_line('game.capture has no end yet: 4 frames, 54 events')
        self.page.click('#read-on')
        self.until_line('game.capture is growing: 4 frames, 54 events')
        for size, line in ((700, 'game.capture is growing: 9 frames, 130 events'),
                           (len(data), 'game.capture has ended: 13 frames, 209 events')):
            self.page.evaluate(give % base64.b64encode(data[:size]).decode())
            self.page.until('document.getElementById("growing-text").textContent.startsWith(%r)' % line[:24])
        self.until_line(line)
        self.picture(data)


if __name__ == '__main__':
    unittest.main()
