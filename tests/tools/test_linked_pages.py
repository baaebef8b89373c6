"""The pages of the viewer that reduce, audit, corpus and conform link, made with a viewer that is empty."""
import base64
import contextlib
import gzip
import html
import io
import os
import re
import subprocess
from unittest import mock
from urllib.parse import unquote

from psxgpu import capture as c
from psxgpu.__main__ import main
from psxgpu.viewing import template
from tests import support
from tests.tools.test_page import SMALL, cases_of

# A player of psxgpu_tool in which each opaque rectangle is semi-transparent.
OTHER = '#!/bin/sh\ntr "\\140" "\\142" | %s "$@"\n' % support.PLAYER
RIGHT = '#!/bin/sh\nexec %s "$@"\n' % support.PLAYER


def files_of(case):
    """The files of a case: their bytes by their names."""
    return {file['name']: gzip.decompress(base64.b64decode(file['bytes'])) for file in case['files']}


@support.needs_player
class Linked(support.InFolder):
    def setUp(self):
        super().setUp()
        before = os.getcwd()
        self.addCleanup(os.chdir, before)
        os.chdir(self.folder)
        viewer = self.write('viewer.html', SMALL)
        self.enterContext(mock.patch.object(template, 'places', lambda: [viewer]))
        for name, text in (('ours', RIGHT), ('other', OTHER)):
            os.chmod(self.write(name, text), 0o755)
        capture = c.Capture().gp0(c.drawing_area(0, 0, 1023, 511), c.fill(0x40F840, 0, 0, 64, 64))
        self.write('in.capture', capture.gp0(c.rectangle(0x0000F8, 4, 4, 9, 7)).bytes())

    def run_it(self, *words):
        """Runs a tool. Returns its status and what it printed."""
        out = io.StringIO()
        with contextlib.redirect_stdout(out):
            status = main(list(words))
        return status, out.getvalue()

    def dump(self, data):
        """What the other player draws."""
        return subprocess.run(['./other', 'vram'], input=data, capture_output=True, check=True).stdout

    def expect_case(self, case, event):
        """It opens after an event, at the first cell that differs, compared with what the other player drew."""
        (name, data), (theirs, dump) = files_of(case).items()
        self.assertEqual((theirs, dump), ('theirs.vram', self.dump(data)))
        found = re.fullmatch(r'event=%d&view=memory&cell=(\d+),(\d+)&zoom=8' % event, case['place'])
        self.assertTrue(found, case['place'])
        at = 2 * (1024 * int(found[2]) + int(found[1]))
        right = subprocess.run(['./ours', 'vram'], input=data, capture_output=True, check=True).stdout
        self.assertNotEqual(dump[at:at + 2], right[at:at + 2])
        self.assertEqual(dump[:at], right[:at])
        return data

    def test_reduce(self):
        status, _ = self.run_it('reduce', 'in.capture', './ours', './other', '-o', 'small', '--jobs', '1')
        case, = cases_of(self.read('small.html'))
        data = self.read('small.capture')
        events = sum(map(len, (words for _, _, words in c.records(data)[1])))
        self.assertEqual((status, self.expect_case(case, events)), (1, data))
        self.assertIn('theirs: ./other', case['note'])

    def test_audit(self):
        self.run_it('audit', 'in.capture', './ours', './other', '--reduce', 'out')
        name, = re.findall('<a href="([^"]*)[.]html">', self.read('out/index.html').decode())
        case, = cases_of(self.read('out/%s.html' % name))
        self.assertEqual(files_of(case)[name + '.capture'], self.read('out/%s.capture' % name))

    def check_corpus(self, *more):
        """The page of the viewer that the report links, and its link."""
        os.mkdir('in')
        os.rename('in.capture', 'in/a b#.capture')
        self.run_it('corpus', 'record', 'in', '--golden', 'sums', '--player', './ours', '--jobs', '1', '--gives', 'vram')
        self.run_it('corpus', 'check', 'in', '--golden', 'sums', '--player', './other', '--jobs', '1', *more)
        links = re.findall('<a href="([^"]*)">Open it in the viewer', self.read('corpus-report/report.html').decode())
        self.assertEqual(links, ['a%20b%23.capture-viewer.html'])
        return cases_of(self.read(os.path.join('corpus-report', unquote(links[0]))))

    def test_corpus(self):
        """With a reference, the page opens after the first packet that differs: the rectangle, of three words."""
        case, = self.check_corpus('--reference', './ours')
        self.expect_case(case, 8)

    def test_corpus_without_a_reference(self):
        case, = self.check_corpus()
        self.assertEqual((case['place'], list(files_of(case))), ('event=8', ['a b#.capture']))

    def test_conform(self):
        """Each test that did not pass has a link that names its case."""
        status, _ = self.run_it('conform', './other', '--only', 'rectangles', '--page', 'page.html')
        page = self.read('page.html').decode()
        links = [html.unescape(link) for link in re.findall('<a href="([^"]*)">Open it in the viewer', page)]
        cases = {case['name']: case for case in cases_of(self.read('page-viewer.html'))}
        self.assertEqual((status, len(links)), (1, page.count('<section')))
        self.assertEqual([unquote(link.split('#example=')[1]) for link in links], list(cases))
        self.assertEqual({link.split('#')[0] for link in links}, {'page-viewer.html'})
        self.expect_case(cases['rectangles/negative-corner'], 5)

    def test_conform_leaves_a_file_of_a_user(self):
        self.write('page-viewer.html', '<!doctype html><!-- psxgpu page -->\n')
        with contextlib.redirect_stderr(io.StringIO()) as said:
            status, _ = self.run_it('conform', './other', '--only', 'rectangles', '--page', 'page.html')
        self.assertEqual((status, os.path.exists('page.html')), (2, False))
        self.assertIn('page-viewer.html is there, and this tool did not write it', said.getvalue())

    def test_without_the_viewer(self):
        os.remove('viewer.html')
        self.run_it('reduce', 'in.capture', './ours', './other', '-o', 'small', '--jobs', '1')
        self.run_it('conform', './other', '--only', 'rectangles', '--page', 'page.html')
        self.assertEqual([name for name in os.listdir() if name.endswith('.html')], ['page.html'])
        self.assertNotIn('Open it in the viewer', self.read('page.html').decode())


if __name__ == '__main__':
    import unittest
    unittest.main()
