"""The tool page: a page of the viewer with recordings inside. What browsers show of it: tests/viewer/test_pages.py."""
import base64
import gzip
import json
import lzma
import os
import re
import unittest

from psxgpu import capture as c
from psxgpu.viewing import template
from psxgpu.viewing.place import VIEWS, Place
from tests import support
from tests.tools.dumps_support import HAND_MADE

# A viewer of which nothing but the element for the cases is there.
SMALL = template.HEAD + '<p>%s%s</p>\n' % (template.INSIDE, template.END)
HOSTILE = '</script><script>alert(1)</script><!-- "\'&lt;\u2028'


def cases_of(page):
    """What a page has inside."""
    found = re.search('%s(.*?)</script>' % re.escape(template.INSIDE), page.decode(), re.S)
    return json.loads(found[1])


class Pages(support.InFolder):
    def setUp(self):
        super().setUp()
        self.viewer = self.write('viewer.html', SMALL)

    def made(self, *words, status=0):
        """The page that the tool writes, or the line that it says."""
        done = support.run_tool('page', *words, '-o', self.path('page.html'), '--viewer', self.viewer)
        self.assertEqual(done.returncode, status, done.stderr)
        return self.read('page.html') if status == 0 else done.stderr

    def test_what_is_inside(self):
        data = c.Capture().gp0(c.fill(0xFF, 0, 0, 16, 16)).gp0(0, 0).bytes()
        path = self.write('a.capture', data)
        words = ['--at', '3', '--view', 'memory', '--cell', '7,9', '--zoom', '4', '--note', 'a note']
        page = self.made(path, *words)
        case, = cases_of(page)
        self.assertEqual((case['name'], case['place'], case['note']),
                         ('a.capture', 'event=3&view=memory&cell=7,9&zoom=4', 'a note'))
        self.assertEqual([(file['name'], gzip.decompress(base64.b64decode(file['bytes']))) for file in case['files']],
                         [('a.capture', data)])
        self.assertEqual(page, self.made(path, *words))

    def test_packed_files_and_dumps_are_inside_as_they_are(self):
        data = c.Capture().gp0(c.fill(0xFF, 0, 0, 16, 16)).bytes()
        for name, inside, pack in (('b.capture.gz', data, gzip.compress), ('c.psxgpu', HAND_MADE, bytes),
                                   ('d.psxgpu.xz', HAND_MADE, lzma.compress)):
            with self.subTest(name):
                file, = cases_of(self.made(self.write(name, pack(inside))))[0]['files']
                self.assertEqual((file['name'], gzip.decompress(base64.b64decode(file['bytes']))),
                                 (re.sub('[.](gz|xz)$', '', name), inside))

    def test_no_text_ends_the_element(self):
        path = self.write('a<script><b>&.capture', c.Capture().gp0(0).bytes())
        page = self.made(path, '--note', HOSTILE)
        case, = cases_of(page)
        self.assertEqual((case['note'], case['name']), (HOSTILE, os.path.basename(path)))
        inside = page.decode().split(template.INSIDE)[1].split('</script>')[0]
        self.assertFalse(set(inside) & set('<>&'))
        self.assertTrue(inside.isascii())

    def test_two_recordings(self):
        one, other = (self.write(name, c.Capture().gp0(0).bytes()) for name in ('a.capture', 'b.capture'))
        case, = cases_of(self.made(one, other))
        self.assertEqual([file['name'] for file in case['files']], ['a.capture', 'b.capture'])
        self.assertIn('at most two recordings', self.made(one, other, one, status=2))

    def test_places_that_are_not_there(self):
        path = self.write('a.capture', c.Capture().gp0(c.fill(0xFF, 0, 0, 16, 16)).bytes())
        for words, text in ((['--at', '4'], 'a.capture: there is no event 4: it has those from 1 to 3'),
                            (['--at', '3a'], '3a is not an event'), (['--cell', '0,512'], 'video memory has 512 rows'),
                            (['--cell', '1024,0'], 'not a cell'), (['--zoom', '1000'], 'not a scale'),
                            (['--view', 'side'], 'invalid choice')):
            with self.subTest(words):
                self.assertIn(text, self.made(path, *words, status=2))
        self.assertFalse(os.path.exists(self.path('page.html')))
        tall = self.write('t.capture', c.Capture(version=3).gp0(c.fill(0xFF, 0, 0, 16, 16)).bytes())
        self.made(tall, '--cell', '0,1023')

    def test_what_is_no_recording(self):
        for data, text in ((b'P6 1 1 255 abc', 'not a capture'), (c.Capture().gp0(1, 2).bytes()[:-6], 'cut at byte')):
            self.assertIn(text, self.made(self.write('a', data), status=2))

    def test_no_viewer(self):
        path = self.write('a.capture', c.Capture().gp0(0).bytes())
        self.viewer = self.write('other.html', '<!doctype html>\n')
        self.assertIn('other.html: not the viewer, or one of another version', self.made(path, status=2))

    @support.needs_player
    def test_a_frame_alone(self):
        """It has the state before it, and plays as the whole does there."""
        case, = cases_of(self.made(support.example('flips'), '--frame', '2', '--at', '16'))
        file, = case['files']
        data = gzip.decompress(base64.b64decode(file['bytes']))
        done = support.run_tool('trim', '--frames', '2', support.example('flips'), '-o', self.path('part'))
        self.assertEqual((done.returncode, file['name'], data), (0, 'flips-frame-2.snapshot', self.read('part')))
        self.assertIn('no event 3', self.made(support.example('flips'), '--frame', '2', '--at', '3', status=2))

    @support.needs_player
    def test_items(self):
        """The event of the example that starts DMA completes 87 packets."""
        path = support.example('textured-frame')
        self.made(path, '--at', '2947.87')
        self.assertIn('there is no item 88 of event 2947: it has 87', self.made(path, '--at', '2947.88', status=2))


class Places(unittest.TestCase):
    def test_links(self):
        self.assertEqual(Place().link, '')
        self.assertEqual(Place('5.2', 'drawn', (0, 0), '2').link, 'event=5.2&view=drawn&cell=0,0&zoom=2')

    def test_views_are_those_of_the_viewer(self):
        with open(os.path.join(support.TOP, 'web', 'viewer', 'views', 'view_images.js'), encoding='utf-8') as file:
            found = re.search(r"export const VIEWS = \[(.*)\];", file.read())
        self.assertEqual(tuple(re.findall(r"'(\w+)'", found[1])), VIEWS)


if __name__ == '__main__':
    unittest.main()
