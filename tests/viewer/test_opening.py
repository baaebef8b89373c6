"""The modules of the viewer that open files, in Chromium: GPU dumps, plain and packed, whole and damaged.

    python3 -m tests.viewer.test_opening

They need neither the machine nor the page: a page of their own has these modules alone, and takes files that are dropped.
"""
import base64
import gzip
import io
import json
import lzma
import os
import tempfile
import unittest

from tests.web.browser import Browser
from web.bundle import script_of
from tests.viewer.made import in_zstd
from tests.viewer.page import EXAMPLES, ROOT
from psxgpu import capture as c
from psxgpu.dumps.export import About, Export
from psxgpu.dumps.format import HEAD
from psxgpu.files import read_capture
from psxgpu.stream import Stream
from tests.tools.dumps_support import HAND_MADE, packet

FLAT = ('flips.capture', 'smear.capture', 'tall.capture', 'two-fills.capture', 'ports.capture.gz', 'cube.capture.gz')
# What a dropped file becomes: its version and steps, or the line that says why not and the steps before that.
PAGE = '''<!DOCTYPE html><meta charset="utf-8"><script>
const psxgpu = {};
%s
const stepsOf = recording => Array.from({ length: recording?.length ?? 0 }, (_, k) =>
    [recording.track.kind(k), recording.track.word(k)]);
addEventListener('drop', event => {
    event.preventDefault();
    const [file] = event.dataTransfer.files;
    window.opened = module_opening.openFile(file, file.name, null).then(
        recording => ({ version: recording.version, steps: stepsOf(recording) }),
        fault => ({ said: fault.message, steps: stepsOf(fault.before) }));
});
async function dropped(name, text) {
    const bytes = Uint8Array.from(atob(text), letter => letter.charCodeAt(0)), transfer = new DataTransfer();
    transfer.items.add(new File([bytes], name));
    document.dispatchEvent(new DragEvent('drop', { dataTransfer: transfer, bubbles: true, cancelable: true }));
    return JSON.stringify(await window.opened);
}
</script>'''


def page():
    """The page, as text."""
    return PAGE % script_of(os.path.join(ROOT, 'web', 'viewer'), 'reading/opening')


def steps(data):
    """The steps of a flat capture: kind and word, as the page has them."""
    out = []
    for kind, count, words in Stream(io.BytesIO(data), 'capture'):
        out += [[kind - 2, word] for word in words] if kind in (2, 3) else [[2, 0]] * count
    return out


def dump_of(data):
    """The dump of a flat capture."""
    stream = Stream(io.BytesIO(data), 'capture')
    return b''.join(Export(stream, stream.version == 3, About()))


class Opening(unittest.TestCase):
    @classmethod
    def setUpClass(cls):
        cls.browser = cls.enterClassContext(Browser())
        folder = cls.enterClassContext(tempfile.TemporaryDirectory())
        path = os.path.join(folder, 'page.html')
        with open(path, 'w', encoding='utf-8') as file:
            file.write(page())
        cls.browser.open(path)

    def drop(self, data, name='a.psxgpu'):
        """What the page says of a file that is dropped on it."""
        text = base64.b64encode(data).decode()
        return json.loads(self.browser.evaluate('dropped(%s, %s)' % (json.dumps(name), json.dumps(text))))

    def expected(self, dump):
        """What the tools read of a dump."""
        with tempfile.NamedTemporaryFile() as file:
            file.write(dump)
            file.flush()
            data = read_capture(file.name)
        return {'version': int(data[7:8]), 'steps': steps(data)}

    def test_dumps_of_examples(self):
        for name in FLAT:
            with self.subTest(name):
                dump = dump_of(read_capture(os.path.join(EXAMPLES, name)))
                self.assertEqual(self.drop(dump), self.expected(dump))
        self.assertEqual(self.drop(gzip.compress(dump)), self.expected(dump))

    def test_made_by_hand(self):
        self.assertEqual(self.drop(HAND_MADE), self.expected(HAND_MADE))
        long = HEAD + packet(6, 2) + packet(0x99, *range(70000)) + packet(0, *[0] * 200000) + packet(0) + packet(1, 1, 2)
        self.assertEqual(self.drop(long), self.expected(long))
        self.assertEqual(self.drop(HEAD), {'version': 1, 'steps': []})

    def test_captures_stay(self):
        data = c.Capture().gp0(1, 2).gp1(3).read(2).bytes()
        for packed in (data, gzip.compress(data)):
            self.assertEqual(self.drop(packed, 'a.capture'), {'version': 1, 'steps': steps(data)})
        self.assertEqual(self.drop(b'PSXGPUDUMPv2\0\0')['said'], 'psxgpu: not-capture at event 1 byte 6')

    def test_cut_at_every_byte(self):
        """What is before the cut is kept."""
        whole = self.drop(HAND_MADE)['steps']
        for end in range(len(HEAD), len(HAND_MADE)):
            found = self.drop(HAND_MADE[:end])
            self.assertEqual(found['steps'], whole[:len(found['steps'])])
            if 'said' in found:
                self.assertRegex(found['said'], '^byte %d of the dump: the dump ends inside a packet, which' % end)

    def test_impossible(self):
        for part, why in ((packet(3, 262145), 'byte 22 of the dump: a discard of 262145 words'),
                          (packet(2, *range(20000)), 'byte 22 of the dump: a packet VSync of 20000 words'),
                          (packet(6, 2), 'byte 22 of the dump: the GPU of 2 MB is named after 1 events')):
            self.assertEqual(self.drop(HEAD + packet(0, 7) + part), {'said': why, 'steps': [[0, 7]]})

    def test_packed(self):
        """What the browser cannot unpack is one line with the program that does."""
        for data, name, program in ((in_zstd(HAND_MADE), 'zstd', 'zstd -d'), (lzma.compress(HAND_MADE), 'xz', 'xz -d'),
                                    (b'PK\3\4' + bytes(30), 'zip', 'unzip')):
            knows = self.browser.evaluate(
                '(() => { try { new DecompressionStream("%s"); return true } catch { return false } })()' % name)
            found = self.drop(data)
            if knows:
                self.assertEqual(found, self.expected(HAND_MADE))
            else:
                self.assertEqual(found['said'], 'this is a file packed by %s, which this browser cannot unpack: '
                                 'unpack it first with %s' % (name, program))
        self.assertEqual(self.drop(gzip.compress(HAND_MADE)[:-9])['said'], 'damaged: no whole gzip file')
