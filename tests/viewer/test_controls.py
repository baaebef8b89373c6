"""Menus, keys, wrong input, and what the page says: python3 -m tests.viewer.test_controls, after `make web`."""
import base64
import lzma

from tests.viewer.page import program
from tests.viewer.made import in_zstd
from tests.viewer.reader import Reader
from tests.viewer.recordings import read_by_dma


class Controls(Reader):
    def focused(self):
        return self.page.evaluate('document.activeElement.textContent')

    def test_a_menu_does_nothing_until_an_entry_is_chosen(self):
        self.page.evaluate('probe.viewer.out.does = what => { window.done = what; }; window.done = null;'
                           'document.getElementById("out").focus()')
        self.page.press('ArrowDown')
        self.assertEqual(self.focused(), 'PNG of this view')
        self.page.press('ArrowDown')
        self.page.press('ArrowDown')
        self.assertEqual(self.focused(), 'Video memory (bytes)')
        self.assertIsNone(self.page.evaluate('window.done'))
        self.page.press('Escape')
        self.assertEqual(self.page.evaluate('document.activeElement.id'), 'out')
        self.assertTrue(self.page.evaluate('document.querySelector("#out + .menu").hidden'))
        self.page.press('ArrowDown')
        self.page.press('End')
        self.page.press('Enter', '\r')
        self.assertEqual(self.page.evaluate('window.done'), 'page')
        self.page.evaluate('delete probe.viewer.out.does')

    def test_no_select_does_something_for_good(self):
        self.assertEqual(self.page.evaluate('[...document.querySelectorAll("select")].map(({ id }) => id).sort()'),
                         ['depth', 'difference-as', 'filter', 'frames', 'part', 'rate', 'uploads-of'])

    def test_keys_go_on_after_an_event_was_written(self):
        self.page.press('g', 'g')
        self.page.write('522')
        self.page.press('Enter', '\r')
        self.assertEqual(self.page.evaluate('document.activeElement.id'), '')
        before = self.at
        self.page.press('ArrowRight')
        self.assertGreater(self.at, before)

    def test_wrong_places_of_a_texture(self):
        self.page.press('4', '4')
        for text, why in (('640', 'page: write its place as x,y'), ('2000,0', 'page: x is at most 1023, and y at most 511')):
            self.page.set('#page', text)
            self.assertIn(why, self.page.text('#texture-said'))
            self.assertEqual(self.page.evaluate('document.getElementById("page").getAttribute("aria-invalid")'), 'true')
        self.page.set('#page', '')
        self.assertEqual(self.page.text('#texture-said'), '')

    def test_a_wrong_cell_of_a_search(self):
        self.page.set('#query', '@ 2000,5')
        self.assertEqual(self.page.text('#found'), 'no such cell: write @ x,y up to 1023,511')
        self.page.set('#query', '')

    def test_which_of_the_found(self):
        self.page.set('#query', 'line')
        count = self.page.evaluate('probe.viewer.list.found.length')
        self.assertEqual(self.page.text('#found'), '%d found' % count)
        for k in (1, 2, 3):
            self.page.click('#find')
            self.assertEqual(self.page.text('#found'), '%d of %d found' % (k, count))
        self.page.set('#query', '')

    def test_the_line_under_the_view_is_of_this_place(self):
        self.page.press('3', '3')
        self.page.press('End')
        x, y = self.page.ask('placeOf', 150, 140)
        self.page.call('Input.dispatchMouseEvent', type='mouseMoved', x=x, y=y)
        seen = set()
        for _ in range(40):
            self.page.press('ArrowLeft')
            cell = self.page.evaluate('probe.app.cells[140 * 1024 + 150].toString(16).padStart(4, "0")')
            self.assertIn('cell (150, 140)  %s ' % cell, self.page.text('#place'))
            seen.add(cell)
        self.assertGreater(len(seen), 1)

    def test_a_click_in_the_picture_leaves_no_cursor_in_the_texture(self):
        self.page.press('End')
        self.page.press('1', '1')
        self.page.evaluate('probe.viewer.views.pick({ x: 100, y: 90 })')
        self.page.press('4', '4')
        self.assertIsNone(self.page.evaluate('probe.viewer.views.view.cursor'))
        self.page.evaluate('probe.viewer.views.pick({ x: 3, y: 4 })')
        self.assertEqual(self.page.evaluate('probe.viewer.views.view.cursor'), {'x': 3, 'y': 4})
        self.page.press('1', '1')

    def drop(self, data, name):
        self.page.evaluate('probe.app.say("")')
        self.page.evaluate('''(() => {
            const bytes = Uint8Array.from(atob(%r), letter => letter.charCodeAt(0)), transfer = new DataTransfer();
            transfer.items.add(new File([bytes], %r));
            document.dispatchEvent(new DragEvent('drop', { dataTransfer: transfer, bubbles: true, cancelable: true }));
        })()''' % (base64.b64encode(data).decode(), name))
        self.page.until('document.getElementById("said").textContent !== ""')
        return self.page.text('#said')

    def test_what_is_dropped_is_told(self):
        with open(self.file, 'rb') as file:
            data = file.read()
        ppm = program('shot', data=data)[0]
        self.assertIn('a.ppm is a picture (PPM, 320 × 240), and not a recording', self.drop(ppm, 'a.ppm'))
        dump = program('vram', data=data)[0]
        self.assertIn('a.bin is a dump of video memory (512 rows), and not', self.drop(dump, 'a.bin'))
        self.page.evaluate('[...document.querySelectorAll("#said button")][0].click()')
        self.page.until('document.getElementById("compare").textContent.includes("differ")')
        png = b'\x89PNG\r\n\x1a\n' + bytes([0, 0, 0, 13]) + b'IHDR' + bytes([0, 0, 1, 64, 0, 0, 0, 240]) + bytes(40)
        self.assertIn('a.png is a picture (PNG, 320 × 240)', self.drop(png, 'a.png'))
        self.assertIn('packed by xz, which this browser cannot unpack: unpack it first with xz -d',
                      self.drop(lzma.compress(data), 'a.capture.xz'))
        if not self.page.ask('unpacks', 'zstd'):
            self.assertIn('packed by zstd', self.drop(in_zstd(data), 'a.capture.zst'))

    def test_calm_and_warning(self):
        self.page.evaluate('probe.app.say("all is well")')
        self.assertFalse(self.page.evaluate('document.getElementById("said").classList.contains("warning")'))
        self.assertEqual(self.page.evaluate('document.getElementById("said").getAttribute("role")'), 'status')
        self.page.evaluate('probe.app.warn("it is not")')
        self.assertTrue(self.page.evaluate('document.getElementById("said").classList.contains("warning")'))
        self.assertEqual(self.page.evaluate('document.getElementById("said").getAttribute("role")'), 'alert')
        self.page.evaluate('probe.app.say("")')


class Memory(Reader):
    def test_openings_leave_nothing(self):
        """Refused files, snapshots and recordings that are read by DMA take no memory when they are gone."""
        with open(self.file, 'rb') as file:
            data = file.read()
        snapshot = program('cut', '9', data=data)[0]
        reads = read_by_dma()
        files = [reads, reads[:-4] + bytes([0, 0, 0, 99]), data[:-4], snapshot[:5000], snapshot, b'PSXGPUC9', data]
        for file in files:
            self.page.load(file)
        before = self.page.ask('moduleBytes')
        for k in range(40):
            self.page.load(files[k % len(files)])
        self.assertEqual(self.page.ask('moduleBytes'), before)
        self.page.evaluate('probe.app.say("")')
