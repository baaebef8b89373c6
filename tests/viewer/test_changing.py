"""What if: packets that are left out and changed in the page, against the program on the capture that the page saves.

    python3 -m tests.viewer.test_changing
"""
import base64
import hashlib
import os
import random
import tempfile
import unittest

from tests.viewer.made import drawn_at_random
from tests.viewer.page import EXAMPLES, Page, program
from tests.viewer.recordings import palette_page
from tests.viewer.test_dumps import dump_of

from psxgpu.capture import Capture, draw_mode, drawing_area, fill, line, load, polygon, rectangle, screen

# How often each recording is changed at random: 200 times in all.
CHANGES = {'flips': 10, 'read-back': 5, 'smear': 15, 'tall': 20, 'textured-frame': 50, 'turns': 20, 'made': 40,
           'dump': 25, 'snapshot': 15}
TOGETHER = 5


def example(name):
    """The bytes of an example."""
    with open(os.path.join(EXAMPLES, name + '.capture'), 'rb') as file:
        return file.read()


def recording(name):
    """The bytes of a recording that is changed."""
    if name == 'made':
        return drawn_at_random(7, 200)
    if name == 'dump':
        return dump_of('smear')[0]
    if name == 'snapshot':
        return program('cut', '40', data=drawn_at_random(9, 100))[0]
    return example(name)


def sum_of(data):
    return hashlib.sha256(data).hexdigest()


def without_events(text):
    """The lines of `list` without the numbers of the events."""
    return [row.split(' ', 1)[1] for row in text.splitlines()]


class Changing(unittest.TestCase):
    @classmethod
    def setUpClass(cls):
        cls.page = cls.enterClassContext(Page())
        cls.folder = cls.enterClassContext(tempfile.TemporaryDirectory())

    def tearDown(self):
        self.assertNotIn('A fault', self.page.text('#said'))

    def load(self, data, name='a.capture'):
        self.assertEqual(self.page.load(data, name), True)
        self.page.evaluate('probe.app.seek(1e12)')

    def shown(self):
        """Sums of what the page shows at the end, video memory and the picture, and the bytes that it saves."""
        memory, picture, (text, _) = self.page.ask('changedEnd')
        return memory, picture, base64.b64decode(text)

    def press(self, panel, text):
        """Presses a button of a panel."""
        self.page.evaluate('[...document.querySelectorAll("%s button")].find(it => it.textContent === "%s").click()'
                           % (panel, text))

    def same(self):
        """The page shows at the end the video memory that the program makes of the saved capture."""
        shown = self.shown()
        memory, said = program('vram', data=shown[2])
        self.assertEqual((said, shown[0]), ('', sum_of(memory)))
        return shown

    def all_same(self):
        """So are the picture, the list with its areas, and the steps."""
        _, shown, data = self.same()
        picture, said = program('shot', data=data)
        self.assertEqual(shown, None if 'no-picture' in said else sum_of(picture))
        self.assertEqual(without_events(self.page.ask('list')), without_events(program('list', data=data)[0].decode()))
        if not data.startswith(b'PSXGPUS'):
            self.assertEqual(self.page.ask('flat'), sum_of(program('flat', data=data)[0]))

    def change(self, at, rows):
        """Makes one change at random. Returns whether it is possible and changes something."""
        choice = {'row': at.choice(rows), 'how': at.randrange(3), 'at': at.randrange(100),
                  'values': [at.randrange(1 << 24) for _ in range(2)],
                  'bits': at.choice((1 << at.randrange(32), at.getrandbits(32)))}
        return self.page.ask('change', choice)


class AtRandom(Changing):
    """Each recording is changed at random, up to five times at once. A small window is drawn faster."""

    def setUp(self):
        self.page.size(400, 300)

    def changed_at_random(self, name, count):
        at, data = random.Random(name), recording(name)
        self.load(data, name)
        rows, original, made = self.page.ask('packetRows'), self.shown(), 0
        while made < count:
            together = 0
            while together < TOGETHER and made < count:
                possible = self.change(at, rows)
                together += possible
                made += possible
                if possible:
                    self.same()
            self.all_same()
            changed = self.shown()
            self.again('undo', together)
            self.assertEqual(self.shown(), original)
            self.assertEqual(self.page.evaluate('probe.app.whatIf.count'), 0)
            self.again('redo', together)
            self.assertEqual(self.shown(), changed)
            self.again('undo', together)

    def again(self, what, times):
        """Undoes or redoes changes."""
        self.page.evaluate('for (let k = 0; k < %d; k++) probe.app.whatIf.%s()' % (times, what))

    def test_two_hundred_changes(self):
        self.assertEqual(sum(CHANGES.values()), 200)
        for name, count in CHANGES.items():
            with self.subTest(name):
                self.changed_at_random(name, count)


def squares():
    """A fill, three squares, a polyline, and a load of 4 by 2 cells at (512, 0) that a rectangle shows."""
    out = Capture(2).gp1(screen(0, 0, 320, 240)).gp0(drawing_area(0, 0, 319, 239), fill(0, 0, 0, 320, 240))
    for k in range(3):
        out.gp0(rectangle(0x0000FF << 8 * k, 20 + 60 * k, 30, 40, 40))
    out.gp0(line([(10, 100), (60, 100), (60, 140), (10, 140)], 0xFFFFFF), load(512, 0, 4, 2, [0x1F, 0x801F] * 4))
    out.gp0(draw_mode(0x108), polygon([(10, 200), (14, 200), (10, 202), (14, 202)], 0x808080,
                                      [(0, 0), (4, 0), (0, 2), (4, 2)], page=0x108, palette=0, raw=True))
    return out.bytes()


RED, GREEN, WHITE, BLUE_SHOWN = 0x1F, 0x3E0, 0x7FFF, 0x7C00


class Reader(Changing):
    """What a reader does, with values that are known by the packets."""

    def setUp(self):
        self.load(squares(), 'squares.capture')
        self.page.evaluate('document.activeElement.blur()')
        self.rows = {name: self.page.evaluate('probe.app.recording.rows.kind.indexOf(%d)' % kind)
                     for name, kind in (('square', 3), ('line', 2), ('load', 5), ('polygon', 1))}

    def cell(self, x, y):
        self.page.ask('played')
        return self.page.evaluate('probe.app.cells[%d]' % (1024 * y + x))

    def count(self):
        return self.page.evaluate('probe.app.whatIf.count')

    def words(self, row, change):
        """Gives a row other words."""
        return self.page.evaluate('probe.app.whatIf.setWords(%d, Uint32Array.from(probe.app.recording.rows.words(%d, '
                                  'probe.app.recording.track)).map((word, k) => %s))' % (row, row, change))

    def test_the_key_and_the_box_leave_a_packet_out(self):
        self.page.evaluate('probe.app.seekRow(%d)' % self.rows['square'])
        self.page.press('x', 'x')
        self.assertEqual((self.cell(30, 40), self.cell(90, 40), self.count()), (0, 0, 1))
        self.page.evaluate('probe.app.seek(1e12)')
        self.assertEqual((self.cell(30, 40), self.cell(90, 40)), (0, GREEN))
        box = '[...document.querySelectorAll("#list .row")].find(line => line.index === %d).querySelector(".box")'
        self.assertIn('omitted', self.page.evaluate((box % self.rows['square']) + '.parentNode.className'))
        self.page.evaluate((box % self.rows['square']) + '.click()')
        self.assertEqual((self.cell(30, 40), self.count()), (RED, 0))
        self.assertEqual(self.page.evaluate('probe.app.at'), self.page.evaluate('probe.app.recording.length'))

    def test_undo_and_redo_by_keys(self):
        self.words(self.rows['square'], 'k === 0 ? 0x6000FF00 : word')
        self.assertEqual(self.cell(30, 40), GREEN)
        for key, shift, value in (('z', False, RED), ('y', False, GREEN), ('z', False, RED), ('Z', True, GREEN)):
            self.page.call('Input.dispatchKeyEvent', type='keyDown', key=key, modifiers=2 + 8 * shift)
            self.assertEqual(self.cell(30, 40), value)

    def test_a_polyline_is_one_packet(self):
        self.assertEqual(self.cell(60, 120), WHITE)
        self.page.evaluate('probe.app.whatIf.toggle(%d)' % (self.rows['line'] + 1))
        self.assertEqual([self.cell(60, 120), self.cell(30, 100), self.count()], [0, 0, 1])
        self.all_same()

    def test_another_length_is_refused(self):
        self.assertFalse(self.words(self.rows['square'], 'k === 0 ? 0x780000FF : word'))
        self.assertIn('another length', self.page.text('#said'))
        self.assertFalse(self.words(self.rows['load'], 'k === 2 ? 0x00040004 : word'))
        self.assertEqual((self.cell(30, 40), self.count()), (RED, 0))
        self.assertTrue(self.words(self.rows['load'], 'k === 2 ? 0x00010008 : word'))
        self.all_same()

    def test_fields_are_inputs(self):
        self.page.evaluate('probe.app.seekRow(%d)' % self.rows['square'])
        self.press('#packet', 'Change')
        self.page.set('#packet input[aria-label="corner: x, y"]', '200, 100')
        self.assertEqual((self.cell(30, 40), self.cell(210, 110)), (0, RED))
        self.page.set('#packet input[aria-label^="colour"]', '#00ff00')
        self.assertEqual(self.cell(210, 110), GREEN)
        self.page.set('#packet input[aria-label="corner: x, y"]', 'there')
        self.assertIn('write 2 numbers', self.page.text('#packet'))
        self.page.set('#packet textarea', '60ff0000 00640000 00280028')
        self.assertEqual(self.cell(10, 110), BLUE_SHOWN)
        self.press('#packet', 'As it was')
        self.assertEqual((self.cell(30, 40), self.count()), (RED, 0))

    def test_a_png_replaces_the_cells_of_a_load(self):
        """Bit 15 stays: cells 001Fh and 801Fh become blue ones. A pixel that is not drawn becomes 0000h."""
        self.replace(4, 2, 'context.fillStyle = "#0000ff"; context.fillRect(1, 0, 3, 2);')
        self.assertEqual([self.cell(512 + k, row) for row in (0, 1) for k in range(4)], [0, 0xFC00, 0x7C00, 0xFC00] * 2)
        self.all_same()

    def test_a_png_is_looked_up_in_the_palette(self):
        """Texels of 4 bits in the colours of the palette from the last to the first, which is not drawn: F to 0."""
        self.load(palette_page(), 'palette.capture')
        self.page.press('4', '4')
        self.page.set('#palette', '0,480')
        self.replace(16, 1, '''for (let k = 0; k < 15; k++) {
            context.fillStyle = `rgb(${[8, 8, 8].map(by => by * (15 - k))})`;
            context.fillRect(k, 0, 1, 1);
        }''')
        self.assertEqual([self.cell(640 + k, 0) for k in range(4)], [0xCDEF, 0x89AB, 0x4567, 0x0123])
        self.all_same()

    def replace(self, width, height, drawn):
        """Replaces the first load by a PNG, with the video memory of the end."""
        self.page.evaluate('''(async () => {
            const canvas = new OffscreenCanvas(%d, %d), context = canvas.getContext('2d');
            %s
            const file = await canvas.convertToBlob({ type: 'image/png' });
            const { app, viewer } = probe, { recording } = app;
            const row = recording.rows.kind.indexOf(5), words = recording.wordsOf(row), how = viewer.views.choice.shown;
            const out = await module_load_image.wordsOfImage(file, { words }, words, { cells: app.cells, how });
            app.whatIf.setAll(row, out); })()''' % (width, height, drawn))

    def test_the_history_of_a_cell_and_a_cut_are_of_the_changed_recording(self):
        self.page.evaluate('probe.app.whatIf.toggle(%d)' % self.rows['square'])
        self.assertEqual(self.page.ask('pixel', 30, 40), '')
        *_, data = self.shown()
        self.page.evaluate('probe.app.seekRow(%d)' % self.rows['polygon'])
        event = len(program('list', data=data)[0].splitlines())
        cut = base64.b64decode(self.page.ask('cutHere'))
        at = int(program('list', data=data)[0].decode().splitlines()[event - 1].split()[0])
        self.assertEqual(cut, program('cut', str(at), data=data)[0])


class Saving(Changing):
    """The saved file, and what the page says of it."""

    def test_a_changed_list_becomes_words(self):
        """The example draws all by one list. Its other records stay."""
        data = example('textured-frame')
        self.load(data, 'textured-frame.capture')
        row = self.page.ask('packetRows')[60]
        self.page.evaluate('probe.app.whatIf.toggle(%d)' % row)
        self.page.call('Browser.setDownloadBehavior', behavior='allow', downloadPath=self.folder)
        self.page.evaluate('probe.viewer.out.changed()')
        self.assertIn('Saved textured-frame-changed.capture: 1 packet changed. The words of 1 event of DMA with '
                      'changed packets are words for GP0 in it.', self.page.text('#said'))
        self.assertIn('changed: 1 packet', self.page.text('#changed-mark'))
        self.all_same()

    def test_what_is_before_a_fault(self):
        """The saved capture has what was opened, and no fault."""
        self.assertIn('bad-record', self.page.load(squares()[:-4] + b'\xff' * 8, 'bad.capture'))
        self.page.click('#said button')
        self.page.ask('played')
        self.page.evaluate('probe.app.whatIf.toggle(%d)' % self.page.ask('packetRows')[2])
        self.all_same()

    def test_compared_with_the_file(self):
        """The second square alone differs: 40 by 40 cells."""
        self.load(squares(), 'squares.capture')
        first = self.page.evaluate('probe.app.recording.rows.kind.indexOf(3)')
        self.page.evaluate('probe.app.whatIf.toggle(%d)' % (first + 1))
        self.press('#changes', 'Compare with the file')
        self.page.until('document.getElementById("compare").textContent.includes("first packet")')
        self.assertIn('1,600 cells, in 80 30 119 69', self.page.text('#compare'))
        self.page.evaluate('probe.viewer.compare.forget()')

    def test_another_file_is_not_opened_before_the_changes_are_saved(self):
        """Unless the reader says so. After the changes are undone or saved it is opened at once."""
        path = os.path.join(EXAMPLES, 'two-fills.capture')
        name = 'probe.app.recording.name'
        for before in ('undo', None):
            self.load(squares(), 'squares.capture')
            self.page.evaluate('probe.app.whatIf.toggle(%d)' % self.page.ask('packetRows')[4])
            self.page.choose('#open', path)
            self.page.until('!document.getElementById("said").hidden')
            self.assertIn('Not opened: changes of 1 packet in squares.capture are not saved.', self.page.text('#said'))
            self.assertEqual((self.page.evaluate(name), self.page.evaluate('probe.app.whatIf.count')),
                             ('squares.capture', 1))
            if before:
                self.page.evaluate('probe.app.whatIf.%s()' % before)
                self.page.choose('#open', path)
            else:
                self.page.click('#said button')
            self.page.until(name + ' === "two-fills.capture"')
            self.page.ask('played')

    def test_nothing_is_changed(self):
        self.load(example('two-fills'), 'two-fills.capture')
        self.page.evaluate('probe.viewer.out.does("changed")')
        self.page.until('document.getElementById("said").textContent.includes("nothing is changed")')
        self.assertTrue(self.page.evaluate('document.getElementById("changed").hidden'))


if __name__ == '__main__':
    unittest.main()
