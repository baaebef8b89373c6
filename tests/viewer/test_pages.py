"""Pages with recordings inside, in Chromium: python3 -m tests.viewer.test_pages, after `make web`."""
import functools
import hashlib
import http.server
import os
import pathlib
import tempfile
import threading
import time
import unittest

from psxgpu import capture as c
from tests import support
from tests.tools.dumps_support import HAND_MADE
from tests.viewer.page import EXAMPLES, PAGE, Page, examples, program
from tests.viewer.pages import SEEN, made, show
from tests.viewer.recordings import two_buffers

# The faulty bit of docs/VIEWER.md, in the CLUT attribute of one face of the cube.
RIGHT, WRONG = bytes.fromhex('9080782c8000700000000078'), bytes.fromhex('9080782c8000700000004078')
HOSTILE = '</script><script>document.title = 1</script><img src=x onerror="document.title = 1"> & &lt;b&gt; \' " -->'

setUpModule = support.needs_built(PAGE, 'viewer')


class Pages(unittest.TestCase):
    @classmethod
    def setUpClass(cls):
        cls.page = cls.enterClassContext(Page())

    def setUp(self):
        self.folder = self.enterContext(tempfile.TemporaryDirectory())

    def write(self, name, data):
        path = os.path.join(self.folder, name)
        with open(path, 'wb') as file:
            file.write(data)
        return path

    def seen(self, *words):
        """What the page of these arguments shows."""
        show(self.page, made(self.folder, *words))
        return self.page.evaluate(SEEN)

    def test_each_example(self):
        """It opens as the file does: with the memory of the program at its end, or the program's line."""
        for name, data in examples():
            with self.subTest(name):
                show(self.page, made(self.folder, os.path.join(EXAMPLES, name)))
                refused = program('vram', data=data)[1]
                if refused:
                    self.assertIn(refused, self.page.text('#said'))
                    continue
                self.page.evaluate('probe.app.seek(1e12)')
                self.assertEqual(self.page.ask('memory'), hashlib.sha256(program('vram', data=data)[0]).hexdigest())
                self.assertEqual(self.page.ask('list'), program('list', data=data)[0].decode())

    def test_a_place(self):
        with open(os.path.join(EXAMPLES, 'textured-frame.capture'), 'rb') as file:
            data = file.read().replace(RIGHT, WRONG)
        path = self.write('wrong.capture', data)
        seen = self.seen(path, '--at', '2947.60', '--view', 'drawn', '--cell', '150,140', '--zoom', '4', '--note',
                         'the left face is yellow')
        self.assertEqual(seen, ['wrong.capture', '2947.60', 'drawn', [150, 140], 'the left face is yellow', ''])
        self.assertEqual(self.page.evaluate('[probe.viewer.views.view.scale, probe.viewer.views.view.middle()]'),
                         [4, {'x': 150.5, 'y': 140.5}])
        self.assertEqual(self.page.ask('pixel', 150, 140), program('pixel', '150', '140', data=data)[0].decode())
        self.page.choose('#open', os.path.join(EXAMPLES, 'flips.capture'))
        self.page.until('document.title.startsWith("flips")')
        self.assertTrue(self.page.evaluate('document.getElementById("note").hidden'))

    def test_without_a_place_it_opens_at_the_last_frame(self):
        seen = self.seen(self.write('a.capture', two_buffers()), '--view', 'memory')
        last = self.page.evaluate('probe.app.recording.flips.at(-1) + 1')
        self.assertEqual((self.page.evaluate('probe.app.at'), seen[2]), (last, 'memory'))

    def test_a_link_goes_before_the_place(self):
        path = made(self.folder, os.path.join(EXAMPLES, 'flips.capture'), '--at', '20')
        for hash, event in (('#event=12&view=memory', 12), ('', 20), ('#example=two-fills', 12)):
            self.page.open(PAGE)
            self.page.call('Page.navigate', url=pathlib.Path(path).as_uri() + hash)
            self.page.until('document.readyState === "complete" && Boolean(window.viewer)')
            self.page.until('(async () => { const { app } = await window.viewer; '
                            'return app.recording && app.goal < 0 && app.at === %d })()' % event)
        self.assertIn('two-fills.capture', self.page.text('#file'))

    def test_a_dump(self):
        seen = self.seen(self.write('a.psxgpu', HAND_MADE))
        what = self.page.evaluate('probe.app.recording.what')
        self.assertEqual((seen[0], seen[5], what), ('a.psxgpu', '', 'GPU dump'))

    def test_two_recordings(self):
        with open(os.path.join(EXAMPLES, 'textured-frame.capture'), 'rb') as file:
            data = file.read()
        one, other = self.write('right.capture', data), self.write('wrong.capture', data.replace(RIGHT, WRONG))
        self.assertEqual(self.seen(one, other)[0], 'right.capture')
        self.page.until('document.getElementById("compare").textContent.includes("first packet")')
        told = self.page.text('#compare')
        self.assertIn('withwrong.capture', told)
        self.assertRegex(told, 'first packethere 2947.55 polygon 2c788090')

    def test_hostile_texts(self):
        name = 'a<script>document.title = 2<br>&lt;.capture'
        seen = self.seen(self.write(name, c.Capture().gp0(c.fill(0xFF, 0, 0, 16, 16)).bytes()), '--note', HOSTILE)
        self.assertEqual((seen[0], seen[4], seen[5]), (name, HOSTILE, ''))
        self.assertEqual(self.page.evaluate('document.title'), name + ': Valerianpane')
        self.assertEqual(self.page.evaluate('document.querySelectorAll("#note *, #file *").length'), 0)

    def test_no_other_script_runs(self):
        """The policy names the scripts of the page, and lets it load nothing."""
        show(self.page, made(self.folder, os.path.join(EXAMPLES, 'flips.capture')))
        ran = self.page.evaluate('''(async () => {
            const script = Object.assign(document.createElement('script'), { text: 'window.ran = true' });
            document.head.append(script);
            const image = new Image();
            const loaded = new Promise(done => { image.onload = () => done(true); image.onerror = () => done(false); });
            image.src = new URL('x.png', location.href);
            const fetched = await fetch(location.href).then(() => true, () => false);
            return [Boolean(window.ran), await loaded, fetched]; })()''')
        self.assertEqual(ran, [False, False, False])

    def test_from_a_server(self):
        made(self.folder, os.path.join(EXAMPLES, 'flips.capture'), '--at', '20')
        handler = functools.partial(Quiet, directory=self.folder)
        with http.server.ThreadingHTTPServer(('127.0.0.1', 0), handler) as server:
            threading.Thread(target=server.serve_forever, daemon=True).start()
            self.page.call('Page.navigate', url='http://127.0.0.1:%d/page.html' % server.server_port)
            self.page.until('document.readyState === "complete"')
            self.page.until('(async () => (await window.viewer).app.at === 20)()')
            server.shutdown()
        self.assertEqual(Quiet.asked, {'/page.html'} | Quiet.asked & {'/favicon.ico'})

    def saved(self, name):
        """The page that the viewer saves of what it shows."""
        self.page.call('Browser.setDownloadBehavior', behavior='allow', downloadPath=self.folder)
        path = os.path.join(self.folder, name)
        if os.path.exists(path):
            os.remove(path)
        self.page.click('#out')
        self.page.evaluate('[...document.querySelectorAll("#out + .menu button")]'
                           '.find(entry => entry.textContent.startsWith("Page with")).click()')
        for _ in range(500):
            if os.path.exists(path):
                break
            time.sleep(0.02)
        with open(path, 'rb') as file:
            return file.read()

    def test_saved_by_the_viewer(self):
        """It opens at the place that was seen, with the note, and is saved again as the same bytes."""
        show(self.page, made(self.folder, os.path.join(EXAMPLES, 'textured-frame.capture'), '--note', HOSTILE))
        self.page.evaluate('probe.app.seekRow(60)')
        self.page.evaluate('probe.app.choose({ x: 150, y: 140 })')
        self.page.press('3', '3')
        before = self.page.evaluate(SEEN)
        name = 'textured-frame-%s.html' % before[1]
        first = self.saved(name)
        show(self.page, self.write('saved.html', first))
        self.assertEqual(self.page.evaluate(SEEN), before)
        self.assertEqual(self.saved(name), first)

    def test_two_saved_by_the_viewer(self):
        one, other = (os.path.join(EXAMPLES, name + '.capture') for name in ('flips', 'two-fills'))
        is_compared = 'document.getElementById("compare").textContent.includes("withtwo-fills.capture")'
        show(self.page, made(self.folder, one, other, '--at', '20'))
        self.page.until(is_compared)
        data = self.saved('flips-20.html')
        show(self.page, self.write('saved.html', data))
        self.assertEqual(self.page.evaluate(SEEN)[:2], ['flips.capture', '20'])
        self.page.until(is_compared)

    def test_a_dump_to_compare_with_is_saved(self):
        path = os.path.join(EXAMPLES, 'flips.capture')
        with open(path, 'rb') as file:
            dump = bytearray(program('vram', data=file.read())[0])
        dump[0] ^= 1
        show(self.page, made(self.folder, path, '--at', '36'))
        self.page.choose('#dump', self.write('theirs.vram', dump))
        self.page.until('document.getElementById("compare").textContent.includes("1 cell")')
        show(self.page, self.write('saved.html', self.saved('flips-36.html')))
        self.page.until('document.getElementById("compare").textContent.includes("withtheirs.vram")')
        self.assertIn('differ1 cell', self.page.text('#compare'))


class Quiet(http.server.SimpleHTTPRequestHandler):
    """Notes the paths that are asked for."""
    asked = set()

    def log_message(self, *_):
        self.asked.add(self.path)


if __name__ == '__main__':
    unittest.main()
