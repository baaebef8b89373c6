"""What leaves the page, and what comes beside it: files that are saved, links, a second dump.

    python3 -m tests.viewer.test_out
"""
import os
import subprocess
import sys
import time

from tests.viewer.page import ROOT, program
from tests.viewer.reader import Reader


class Out(Reader):
    def test_compare(self):
        with open(self.file, 'rb') as file:
            data = file.read()
        own, other = os.path.join(self.folder, 'own.bin'), os.path.join(self.folder, 'other.bin')
        dump = bytearray(program('vram', data=data)[0])
        for path in (own, other):
            with open(path, 'wb') as file:
                file.write(dump)
            dump[2 * (1024 * 140 + 150)] ^= 1
            dump[2 * (1024 * 150 + 100)] ^= 1
        self.page.press('End')
        self.page.choose('#dump', own)
        self.page.until('document.getElementById("compare").textContent.includes("are the same")')
        self.page.choose('#dump', other)
        self.page.until('document.getElementById("compare").textContent.includes("2 cells")')
        self.page.press('3', '3')
        seen = self.page.evaluate('[...probe.viewer.views.view.source.getContext("2d").getImageData(150, 140, 1, 1).data]')
        self.assertEqual(seen, [255, 77, 109, 255])
        self.page.until('document.getElementById("compare").textContent.includes("first drawn by")')
        told = self.page.evaluate('document.getElementById("compare").textContent')
        tool = [sys.executable, '-m', 'psxgpu', 'compare', own, other]
        said = subprocess.run(tool, capture_output=True, text=True, check=False, cwd=ROOT)
        self.assertIn('their box100 140 150 150', told)
        self.assertIn('100 140 150 150', said.stdout)
        event, name, head = program('pixel', '150', '140', data=data)[0].decode().split()[:3]
        self.assertRegex(told, r'first drawn byevent %s\.\d+: %s %s' % (event, name, head))

    def test_a_png_of_the_picture_is_the_picture(self):
        self.page.press('End')
        same = self.page.evaluate('''(async () => {
            probe.viewer.views.choose('picture');
            const blob = await new Promise(go => probe.viewer.views.view.source.toBlob(go));
            const difference = new module_compare.Difference(await module_compare.readDump(blob), 'png');
            difference.look(probe.app);
            return [difference.view, difference.problem, difference.count]; })()''')
        self.assertEqual(same, ['picture', None, 0])

    def test_what_is_saved(self):
        with open(self.file, 'rb') as file:
            data = file.read()
        self.page.call('Browser.setDownloadBehavior', behavior='allow', downloadPath=self.folder)
        self.page.evaluate('probe.app.seek(1e12)')
        self.page.press('3', '3')
        self.assertEqual(self.saved('Video memory', 'textured-frame-2948.vram'), program('vram', data=data)[0])
        self.assertEqual(self.saved('Picture', 'textured-frame-2948.ppm'), program('shot', data=data)[0])
        self.assertEqual(self.saved('Capture', 'textured-frame-2948.snapshot'), program('cut', '2948', data=data)[0])
        self.assertEqual(self.saved('PNG of this view', 'textured-frame-2948-memory.png')[:4], b'\x89PNG')

    def saved(self, what, name):
        """The file that an entry of the menu leaves in the folder of downloads."""
        self.page.click('#out')
        self.page.evaluate('[...document.querySelectorAll("#out + .menu button")]'
                           '.find(entry => entry.textContent.startsWith("%s")).click()' % what)
        path = os.path.join(self.folder, name)
        for _ in range(500):
            if os.path.exists(path):
                break
            time.sleep(0.02)
        with open(path, 'rb') as file:
            return file.read()

    def test_the_words_of_a_packet(self):
        self.page.evaluate('probe.app.seekRow(18)')
        words = self.page.evaluate('probe.app.recording.wordsOf(18)')
        self.assertEqual(['%08x' % word for word in words[:3]], ['38602818', '00000000', '00502010'])
        load = self.page.evaluate('probe.app.recording.rows.kind.indexOf(5)')
        loaded = self.page.evaluate('probe.app.recording.wordsOf(%d)' % load)
        self.assertEqual(len(loaded), 3 + 16 * 64 // 2)
