"""A page with the pictures of the tests that did not pass: theirs, ours and the difference."""
from __future__ import annotations

import base64
from html import escape
from typing import Callable, Iterable, List, Optional, Sequence
from urllib.parse import quote

from psxgpu import __version__
from psxgpu.conformance.judging import DIFFERS, FAILED, PASSED, TROUBLE, Verdict, cell_of
from psxgpu.conformance.released import SUITE
from psxgpu.conformance.report import counts
from psxgpu.conformance.subject import subject_lines
from psxgpu.conformance.suite import WIDTH, Box, Picture, Place, Test
from psxgpu.image import Image, png
from psxgpu.viewing.linked import Shown, case_of, page_of
from psxgpu.viewing.template import Case
from psxgpu.vram import wide

MAKER = 'psxgpu conform'
MOST_SHOWN = 48             # cells of a picture, each way
SCALE, MOST_PIXELS = 8, 320
SAME, OTHER = b'\x20\x20\x20', b'\xff\x40\x40'
ORDER = (FAILED, TROUBLE, DIFFERS)
STYLE = ''':root { color-scheme: light dark; --line: light-dark(#ccc, #444) }
body { font: 15px/1.5 system-ui, sans-serif; max-width: 70em; margin: 0 auto; padding: 1em; overflow-wrap: anywhere }
.wide { overflow-x: auto } table { border-collapse: collapse; overflow-wrap: normal }
td, th { padding: .1em .8em; text-align: right; border-bottom: 1px solid var(--line) }
td:first-child, th:first-child { text-align: left }
figure { display: inline-block; margin: 0 1em .5em 0; max-width: 100% }
img { max-width: 100%; height: auto; image-rendering: pixelated; border: 1px solid #888 }
section { border-top: 1px solid var(--line); padding: .5em 0 }
.failed, .error { color: light-dark(#b00020, #ff8a80) } .differs { color: light-dark(#8a5a00, #e0b050) }
code { background: light-dark(#f2f2f2, #2d323c); padding: 0 .2em } ul { padding-left: 1.2em }'''
PAGE = '''<!doctype html>
<html lang="en"><meta charset="utf-8"><meta name="viewport" content="width=device-width"><title>%s</title><style>%s</style>
<h1>%s</h1><p>Suite %d of psxgpu %s.</p><p>%s</p>
<div class="wide"><table><tr>%s</tr>%s</table></div>%s
%s
</html>
'''
ABOUT = ('<b>failed</b>: psx-spx decides. <b>differs</b>: a rule of this project decides, and a player that differs may be '
         'right. <b>not taken</b>: the player does not take what the test needs.')


def box_shown(verdict: Verdict) -> Box:
    """Returns the box that is shown: that of the test and of what differs, or a part of it around the first difference."""
    x, y = verdict.places[0]
    left, top, width, height = verdict.test.area or (x, y, 1, 1)
    right = max(left + width, *(place[0] + 1 for place in verdict.places))
    bottom = max(top + height, *(place[1] + 1 for place in verdict.places))
    left, top = min(left, *(place[0] for place in verdict.places)), min(top, y)
    if right - left > MOST_SHOWN:
        left = min(max(x - 4, 0), WIDTH - MOST_SHOWN)
        right = left + MOST_SHOWN
    if bottom - top > MOST_SHOWN:
        top = min(max(y - 4, 0), verdict.test.rows - MOST_SHOWN)
        bottom = top + MOST_SHOWN
    return left, top, right - left, bottom - top


def figure(title: str, image: Image) -> str:
    """Returns a picture with its title."""
    scale = max(1, min(SCALE, MOST_PIXELS // max(image.width, 1)))
    return ('<figure><img alt="%s" width="%d" height="%d" src="data:image/png;base64,%s"><figcaption>%s</figcaption></figure>'
            % (title, scale * image.width, scale * image.height, base64.b64encode(png(image)).decode(), title))


def cells(verdict: Verdict) -> str:
    """Returns the pictures of video memory, if cells differ."""
    if verdict.dump is None:
        return ''
    theirs, ours = verdict.dump, verdict.test.dump
    x, y, width, height = box_shown(verdict)
    apart = set(verdict.places)

    def drawn(color: Callable[[Place], bytes]) -> Image:
        return Image(width, height, b''.join(color((x + right, y + down)) for down in range(height)
                                             for right in range(width)))
    images = (('theirs', drawn(lambda place: wide(cell_of(theirs, *place)))),
              ('ours', drawn(lambda place: wide(cell_of(ours, *place)))),
              ('difference', drawn(lambda place: OTHER if place in apart else SAME)))
    return '<div>%s</div><p>from (%d, %d), %d by %d cells</p>' % (
        ''.join(figure(*one) for one in images), x, y, width, height)


def pictures(verdict: Verdict) -> str:
    """Returns the shown pictures, if they differ."""
    theirs, ours = verdict.shown, verdict.test.draft.picture
    if theirs is None or ours is None:
        return ''

    def image(picture: Picture) -> Image:
        return Image(picture.width, picture.height, picture.pixels)
    images = [('theirs', image(theirs)), ('ours', image(ours))]
    if (theirs.width, theirs.height) == (ours.width, ours.height):
        places = range(0, len(ours.pixels), 3)
        pixels = b''.join(SAME if theirs.pixels[at:at + 3] == ours.pixels[at:at + 3] else OTHER for at in places)
        images.append(('difference', Image(ours.width, ours.height, pixels)))
    return '<div>%s</div><p>the shown picture</p>' % ''.join(figure(*one) for one in images)


def capture(test: Test) -> str:
    """Returns a link that saves the capture of a test."""
    name = test.full_name.replace('/', '-') + '.capture'
    return '<a download="%s" href="data:application/octet-stream;base64,%s">%s</a>' % (
        escape(name), base64.b64encode(test.data).decode(), escape(name))


def case_of_verdict(verdict: Verdict) -> Case:
    """Returns a test that did not pass as a case of the viewer, with what the player drew."""
    test = verdict.test
    shown = Shown(verdict.dump, verdict.places[0]) if verdict.dump is not None else Shown()
    return case_of(test.full_name, test.data, shown, '%s: %s\n%s' % (test.full_name, test.says, verdict.reason))


def viewer_page(verdicts: Iterable[Verdict]) -> Optional[bytes]:
    """Returns a page of the viewer that has each test inside that did not pass; None if there is none, or if the viewer
    is not built."""
    return page_of([case_of_verdict(verdict) for verdict in not_passed(verdicts)], MAKER)


def viewer_link(verdict: Verdict, viewer: str) -> str:
    """Returns a link to a test in the page of the viewer; empty without such a page."""
    name = quote(verdict.test.full_name, safe='')
    return '<a href="%s#example=%s">Open it in the viewer</a>' % (quote(viewer), name) if viewer else ''


def section(verdict: Verdict, viewer: str) -> str:
    """Returns what the page has of a test."""
    test = verdict.test
    packets = ''.join('<li><code>%s</code></li>' % escape(line) for line in subject_lines(test))
    paragraphs = [escape(test.says), 'psx-spx: %s. Decided by: %s. Expected values: by %s.' % (
        escape(test.section), test.decides, test.worked), escape(verdict.reason)]
    links = filter(None, ['The test as a file: ' + capture(test), viewer_link(verdict, viewer)])
    text = ''.join('<p>%s</p>' % one for one in [*paragraphs, *links])
    return '<section id="%s"><h3><span class="%s">%s</span> %s</h3>%s%s%s%s</section>' % (
        escape(test.full_name), verdict.kind, verdict.kind, escape(test.full_name), text, cells(verdict),
        pictures(verdict), '<ul>%s</ul>' % packets)


def not_passed(verdicts: Iterable[Verdict]) -> List[Verdict]:
    """Returns the tests that were taken and did not pass, those that psx-spx decides first."""
    return sorted((one for one in verdicts if one.kind in ORDER), key=lambda one: ORDER.index(one.kind))


def page(verdicts: Sequence[Verdict], player: str, viewer: str = '') -> str:
    """Returns the page. `player`: its command; `viewer`: the file of `viewer_page`, if there is one."""
    head, *rows = counts(verdicts)
    body = ''.join('<tr>%s</tr>' % ''.join('<td>%s</td>' % escape(one) for one in row) for row in rows)
    title = 'Conformance: ' + escape(player)
    shown = not_passed(verdicts)
    passed = '' if shown or not any(one.kind == PASSED for one in verdicts) else '<p>No test failed or differs.</p>'
    columns = ''.join('<th>%s</th>' % escape(one) for one in head)
    return PAGE % (title, STYLE, title, SUITE, __version__, ABOUT, columns, body, passed,
                   '\n'.join(section(verdict, viewer) for verdict in shown))
