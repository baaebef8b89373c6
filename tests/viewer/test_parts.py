"""A long recording in parts, as `psxgpu corpus split` cuts it: python3 -m tests.viewer.test_parts, after `make web`."""
import base64
import json
import os
import tempfile
import unittest

from psxgpu import capture as c
from tests import support
from tests.viewer.page import EXAMPLES, PAGE, Page

FLIPS = os.path.join(EXAMPLES, 'flips.capture')

setUpModule = support.needs_built(PAGE, 'viewer')

# Opens a folder of files as a drop does: a folder is an entry with a reader, which gives its files in two turns.
DROP = '''(async files => {
    const fileOf = ([name, text]) => new File([Uint8Array.from(atob(text), it => it.charCodeAt(0))], name);
    const entries = Object.entries(files).map(fileOf).map(file => ({ isFile: true, file: done => done(file) }));
    const turns = [entries.slice(1), entries.slice(0, 1), []];
    const folder = { isDirectory: true, createReader: () => ({ readEntries: done => done(turns.shift()) }) };
    const transfer = { items: [{ webkitGetAsEntry: () => folder }], files: [] };
    await probe.viewer.receiver.openAll(await module_dropped.filesOf(transfer));
})(%s)'''


@support.needs_player
class Parts(unittest.TestCase):
    @classmethod
    def setUpClass(cls):
        cls.page = cls.enterClassContext(Page())
        cls.folder = cls.enterClassContext(tempfile.TemporaryDirectory())
        cls.parts = cls.split(FLIPS, 3)

    @classmethod
    def split(cls, path, count):
        """The paths of the parts of a recording."""
        folder = os.path.join(cls.folder, '%d' % len(os.listdir(cls.folder)))
        done = support.run_tool('corpus', 'split', path, '--parts', str(count), '--into', folder)
        assert done.returncode == 0, done.stderr
        return [os.path.join(folder, name) for name in sorted(os.listdir(folder)) if not name.startswith('.')]

    def choose(self, paths):
        """Chooses files together."""
        document = self.page.call('DOM.getDocument')['root']['nodeId']
        node = self.page.call('DOM.querySelector', nodeId=document, selector='#open')['nodeId']
        self.page.call('DOM.setFileInputFiles', nodeId=node, files=paths)

    def open(self, paths):
        """Opens parts, and waits until the last one is played."""
        self.page.evaluate('document.title = ""')
        self.choose(paths)
        self.page.until('document.title !== ""')
        self.settle()

    def settle(self):
        """Waits until nothing is opened, and the place is reached."""
        self.page.until('!probe.app.parts?.isOpening && probe.app.goal < 0')

    def whole(self, does):
        """What an expression gives at each of the events of the whole recording."""
        with open(FLIPS, 'rb') as file:
            self.page.load(file.read(), 'flips.capture')
        return [self.at_event(event, does) for event in range(1, 37)]

    def at_event(self, event, does):
        self.page.set('#event', str(event))
        self.settle()
        return self.page.evaluate(does)

    def test_each_event_is_that_of_the_whole(self):
        """Whatever part it is in: the state and the address."""
        does = '(async () => [await probe.memory(), await probe.picture(), document.getElementById("event").value])()'
        whole = self.whole(does)
        self.open(self.parts)
        self.assertEqual(self.page.text('#part'), '1 of 3: events 1 to 162 of 3: events 17 to 263 of 3: events 27 on')
        events = [*range(1, 37, 5), *range(36, 0, -7)]
        self.assertEqual([self.at_event(event, does) for event in events], [whole[event - 1] for event in events])

    def visited(self, key, count, shift=False):
        out = []
        for _ in range(count):
            self.page.press(key, key if len(key) == 1 else None, shift=shift)
            self.settle()
            out.append(self.page.evaluate('document.getElementById("event").value'))
        return out

    def test_steps_go_from_part_to_part(self):
        with open(FLIPS, 'rb') as file:
            data = file.read()
        for key, start, count, shift in (('ArrowRight', 'Home', 12, False), ('ArrowLeft', 'End', 12, False),
                                         ('ArrowRight', 'Home', 30, True), (']', 'Home', 4, False),
                                         ('[', 'End', 4, False)):
            with self.subTest(key, shift=shift):
                self.page.load(data, 'flips.capture')
                self.page.press(start)
                whole = self.visited(key, count, shift)
                self.open(self.parts)
                self.page.press(start)
                self.settle()
                self.assertEqual(self.visited(key, count, shift), whole)

    def test_the_menu_and_links(self):
        self.open(self.parts)
        self.page.evaluate('document.activeElement.blur()')
        self.page.press('3', '3')
        self.page.set('#part', '1')
        self.settle()
        seen = '[probe.app.recording.name, document.getElementById("event").value, probe.viewer.views.name]'
        self.assertEqual(self.page.evaluate(seen), ['002.snapshot', '16', 'memory'])
        self.page.evaluate('location.hash = "#event=10&view=drawn&cell=5,6"')
        self.page.until('probe.app.recording.name === "001.capture"')
        self.settle()
        self.assertEqual(self.page.evaluate(seen + '.concat([probe.app.cell.x, probe.app.cell.y])'),
                         ['001.capture', '10', 'drawn', 5, 6])
        self.page.evaluate('history.replaceState(null, "", " ")')

    def test_an_event_that_is_not_there(self):
        self.open(self.parts)
        self.page.set('#event', '99')
        self.assertIn('there is no event 99: the last is 36', self.page.text('#of'))

    def test_a_folder(self):
        """What is no recording is left out."""
        files = {os.path.basename(path): path for path in self.parts}
        data = {name: base64.b64encode(open_bytes(path)).decode() for name, path in reversed(files.items())}
        self.page.evaluate(DROP % json.dumps({'readme.txt': base64.b64encode(b'no recording').decode(), **data}))
        self.settle()
        self.assertEqual(self.page.evaluate('probe.app.parts.files.map(it => it.name)'), list(files))

    def test_a_part_that_is_missing(self):
        self.choose([self.parts[0], self.parts[2]])
        self.page.until('document.getElementById("said").textContent.includes("part 2 is missing")')
        unnumbered = os.path.join(self.folder, 'last.snapshot')
        with open(unnumbered, 'wb') as file:
            file.write(open_bytes(self.parts[2]))
        self.open([self.parts[0], unnumbered])
        self.page.set('#event', '3')
        self.page.until('document.getElementById("said").textContent.startsWith("001.capture ends with event 16, and '
                        'last.snapshot begins after event 26")')

    def test_two_recordings_are_no_parts(self):
        other = os.path.join(self.folder, 'other.capture')
        c.Capture().gp0(c.fill(0xFF, 0, 0, 16, 16)).save(other)
        self.choose([FLIPS, other])
        self.page.until('document.getElementById("said").textContent.includes("both begin after event 0")')
        self.choose([os.path.join(EXAMPLES, 'flips.txt'), os.path.join(EXAMPLES, 'tall.txt')])
        self.page.until('document.getElementById("said").textContent.includes("None of these 2 files is a recording")')


def open_bytes(path):
    """The bytes of a file."""
    with open(path, 'rb') as file:
        return file.read()


if __name__ == '__main__':
    unittest.main()
