"""The page in Chromium and in Firefox, from the disk, against the program

`make web` comes first. The sums of what the module writes are compared with the program's, over all examples. In
Chromium the module with addresses of 64 bits, from which it is made, has to write the same. The script lines of
docs/LIBRARY.md are tried, each that ends in a comment with its value."""
import base64
import gzip
import hashlib
import json
import os
import re
import unittest

HERE = os.path.dirname(os.path.abspath(__file__))
WEB = os.path.join(os.path.dirname(os.path.dirname(HERE)), 'web')

from psxgpu.dumps.export import About, Export
from psxgpu.stream import END, GP0, GP1, Stream, encode
from tests import support
from tests.library import support as program
from tests.web.browser import Browser, chromium
from tests.web.firefox import Firefox, firefox

setUpModule = support.needs_built(os.path.join(WEB, 'out', 'index.html'), 'web')
COMMANDS = ['play', 'vram', 'shot', 'list', 'report', 'frames', 'frames marks', 'sums', 'sums marks', 'pixel 20 30']
# A module whose only part is a memory with addresses of 64 bits.
WIDE_MEMORY = 'WebAssembly.validate(new Uint8Array([0, 97, 115, 109, 1, 0, 0, 0, 5, 3, 1, 4, 1]))'
# Functions of the tests in the page.
with open(os.path.join(HERE, 'test_web.js'), encoding='utf-8') as script:
    HELPERS = script.read()
EXAMPLES = os.path.join(program.TOP, 'examples')


def gp0(*words):
    """A record of words to GP0."""
    return encode(GP0, len(words), words)


def gp1(word):
    """A record of a word to GP1."""
    return encode(GP1, 1, [word])


def whole(*records):
    """The bytes of a capture of version 1."""
    return b'PSXGPUC1' + b''.join(records) + encode(END, 0, [])


class Page:
    """The tests in one browser."""

    @classmethod
    def setUpClass(cls):
        cls.browser = cls.start()
        cls.addClassCleanup(cls.browser.close)

    def setUp(self):
        self.browser.open(os.path.join(WEB, 'out', 'index.html'))
        self.browser.evaluate('page.ready.then(() => true)')
        self.browser.define(HELPERS)

    def plays(self, command):
        """Whether program and module know this command."""
        return program.knows(command) and 'no such mode' not in self.browser.evaluate("plays('%s', '')" % command)[2]

    @program.needs_player
    def test_examples(self):
        commands = [command for command in COMMANDS if self.plays(command)]
        self.assertGreaterEqual(len(commands), 4)
        for path in program.EXAMPLES:
            data = program.bytes_at(path)
            for part in (data, data[:len(data) // 2]):
                text = base64.b64encode(part).decode()
                for command in commands:
                    with self.subTest(path=os.path.basename(path), command=command, length=len(part)):
                        status, out, error = program.play(command, part)
                        found = self.browser.evaluate("plays('%s', '%s')" % (command, text))
                        self.assertEqual(found, [status, hashlib.sha256(out).hexdigest(), error])
                        passed = self.browser.evaluate("passes('%s', '%s')" % (command, text))
                        self.assertEqual(passed, [*found, True])

    @program.needs_player
    def test_events(self):
        """The same by the calls of a machine, of captures and of a snapshot in their midst."""
        for path in program.EXAMPLES:
            data = program.bytes_at(path)
            status, snapshot, _ = program.play('cut 7', data)
            for part in [data] + [snapshot] * (status == 0):
                status, lines, error = program.play('play', part)
                want = [2, error]
                if status == 0:
                    sums = [hashlib.sha256(program.play(command, part)[1]).hexdigest() for command in ('vram', 'shot')]
                    want = [0, lines.decode()] + sums
                with self.subTest(path=os.path.basename(path), length=len(part)):
                    text = base64.b64encode(part).decode()
                    self.assertEqual(self.browser.evaluate("callsSee('%s')" % text), want)

    def test_machine(self):
        self.assertEqual(self.browser.evaluate('machineSeen()'),
                         [31, 0, 0x14802000, 0x22221111, 0, 'psxgpu: the machine is closed'])

    def test_notes_and_picture(self):
        told = [[1, 0, 7, 0xE1000000, None], [4, 3, 0, 0x020000FF, [0, 0, 15, 0]], [7, 6, 5, 0xA0000000, [0, 0, 1, 0]]]
        self.assertEqual(self.browser.evaluate('notesAndPicture()'),
                         [told, [0, 0, 0, 255, 255, 0, 0, 255, 255, 0, 0, 255], True, [0, 0, 0]])

    def test_sink_that_throws(self):
        data = program.bytes_at(os.path.join(EXAMPLES, 'flips.capture'))
        found = self.browser.evaluate("sinkThrows('%s')" % base64.b64encode(data).decode())
        self.assertEqual(found, ['full', 2, 1048576])

    def test_step_back(self):
        self.assertEqual(self.browser.evaluate('stepBack()'), [0, 31])

    def test_heap(self):
        self.assertEqual(self.browser.evaluate('heapFaults(5000)'), 0)

    def opened(self, data, name='a name'):
        """What the page says of a file, its count, the size of the picture, and the sum of its pixels."""
        return self.browser.evaluate("opened('%s', '%s')" % (base64.b64encode(data).decode(), name))

    def test_page(self):
        """A capture that is opened shows the picture of its end."""
        self.opened(program.bytes_at(os.path.join(EXAMPLES, 'two-fills.capture')), 'two-fills')
        pixel = "[...page.element('picture').getContext('2d').getImageData(%d, %d, 1, 1).data]"
        self.assertEqual(self.browser.evaluate("[page.element('picture').width, page.element('picture').height]"), [320, 240])
        # The colours 0x802010 and 0x0000FF as cells of five bits a channel, and these widened again.
        self.assertEqual(self.browser.evaluate(pixel % (5, 5)), [16, 33, 132, 255])
        self.assertEqual(self.browser.evaluate(pixel % (130, 90)), [255, 0, 0, 255])
        self.assertEqual(self.browser.evaluate('nameless()'), [])
        self.assertTrue(self.browser.evaluate('takesDrops()'))

    @program.needs_player
    def test_files(self):
        """A packed file, and a GPU dump, are opened as the capture is."""
        path = os.path.join(EXAMPLES, 'flips.capture')
        capture = program.bytes_at(path)
        with open(path, 'rb') as file:
            dump = b''.join(Export(Stream(file, path), False, About()))
        wanted = self.opened(capture)
        self.assertEqual(wanted[0], 'a name')
        for data in gzip.compress(capture), dump, gzip.compress(dump):
            self.assertEqual(self.opened(data), wanted)

    @program.needs_player
    def test_frames(self):
        """A frame ends at a flip, or at a mark if there is no flip; what follows the last is a frame if it has a packet."""
        flip, mark, fill, half = gp1(0x05000000), gp1(0x3F000001), gp0(0x020000FF, 0, 0x00100010), gp0(0x02000000, 0)
        for parts, count in [([], ''), ([half], ''), ([fill], 'frame 1 of 1'), ([fill, flip], 'frame 1 of 1'),
                             ([fill, flip, half], 'frame 1 of 1'), ([fill, flip, fill], 'frame 2 of 2'),
                             ([fill, mark, fill, mark], 'frame 2 of 2'), ([fill, mark, flip, fill, mark], 'frame 2 of 2')]:
            self.assertEqual(self.opened(whole(gp1(0x03000000), *parts))[1], count, parts)
        self.assertEqual(self.opened(whole(fill, flip, fill)[:-1])[:2],
                         ['a name: the capture ends before its End record', 'frame 2 of 2'])
        self.assertEqual(self.opened(whole(fill, flip, encode(GP1, 0, [0x05000000])))[:2],
                         ['a name: bad record at byte 32', 'frame 1 of 1'])

    def test_no_recording(self):
        for data, said in [(b'P6\n4 4\n255\n' + bytes(48), 'a name: this is a picture (PPM, 4 × 4). Open'),
                           (b'text', 'a name: neither a capture nor a snapshot')]:
            self.assertEqual(self.opened(data)[0][:len(said)], said)


@unittest.skipUnless(chromium(), 'no Chromium')
class InChromium(Page, unittest.TestCase):
    start = Browser

    def test_document(self):
        with open(os.path.join(program.TOP, 'docs', 'LIBRARY.md')) as file:
            lines = re.search(r'(?ms)^```js\n(.*?)^```', file.read())[1].splitlines()
        for line in lines:
            with self.subTest(line=line):
                line, _, value = line.replace('const library = ', 'library = ').partition('// ')
                found = self.browser.evaluate(line if value else line + ' null', repl=True)
                self.assertEqual(found, json.loads(value or 'null'))

    def test_wide(self):
        """The module before systems/lower64.py, where this Chromium knows addresses of 64 bits."""
        if not self.browser.evaluate(WIDE_MEMORY):
            self.skipTest('no WebAssembly memory of 64 bits')
        with open(os.path.join(WEB, 'out', 'psxgpu.64.wasm'), 'rb') as file:
            module = base64.b64encode(file.read()).decode()
        self.browser.evaluate("var library64 = null; psxgpu.load(bytesOf('%s')).then(it => { library64 = it; })" % module)
        for path in program.EXAMPLES:
            text = base64.b64encode(program.bytes_at(path)).decode()
            for command in COMMANDS:
                with self.subTest(path=os.path.basename(path), command=command):
                    want, found = (self.browser.evaluate("plays('%s', '%s', %s)" % (command, text, on))
                                   for on in ('library64', 'library'))
                    self.assertEqual(found, want)


@unittest.skipUnless(firefox(), 'no Firefox')
class InFirefox(Page, unittest.TestCase):
    start = Firefox
