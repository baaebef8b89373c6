"""What a folder of kinds says: a table as text, and index.html."""
from __future__ import annotations

import base64
import html
import os
from collections import Counter
from typing import Any, Dict, List

from psxgpu.errors import counted
from psxgpu.fuzz.causes import Cause
from psxgpu.fuzz.kinds import KINDS, MOST_WORDS, Store
from psxgpu.output import Content, write_several
from psxgpu.packets.deciders import SPX

SHOWN = 4                   # packets in a line of the table
FILES = '.html', '.capture', '.log', '.py', '.json'
PAGE = '''<!doctype html>
<html lang="en"><meta charset="utf-8"><title>%(name)s: kinds of differences</title><style>
body { font: 14px/1.4 sans-serif; margin: 2em auto; max-width: 90em; padding: 0 1em; color: #222 }
table { border-collapse: collapse } td, th { border-top: 1px solid #ccc; padding: 0.5em 1em; text-align: left }
td { vertical-align: top } pre { margin: 0; white-space: pre-wrap; font-size: 12px }
img { image-rendering: pixelated; background: #000; max-width: 30em }
</style>
<h1>%(name)s: %(title)s</h1>
<p>%(about)s Pictures: ours, theirs, the cells that differ.</p>
<table>
<tr><th>seen</th><th>what differs</th><th>who decides</th><th>smallest capture</th><th>picture</th></tr>
%(rows)s
</table>
</html>
'''
ROW = '<tr><td>%d</td><td>%s<br>%s</td><td>%s</td><td><pre>%s</pre>%s</td><td>%s</td></tr>'


class Report:
    """A folder of kinds, put together by causes, with the counts of all its workers."""

    def __init__(self, store: Store, causes: List[Cause]) -> None:
        self.store = store
        self.counts: Counter[str] = Counter()
        self.seen: Counter[str] = Counter()
        self.seconds = 0.0
        for worker in store.counts():
            self.take(worker)
        self.causes = sorted(causes, key=lambda cause: (cause.kind.decision.who != SPX, -self.often(cause), cause.key))

    def take(self, worker: Dict[str, Any]) -> None:
        """Adds the counts of a worker."""
        self.counts.update(worker['counts'])
        self.seen.update(worker['seen'])
        self.seconds += worker['seconds']

    def often(self, cause: Cause) -> int:
        """Returns how often a cause was seen."""
        return sum(self.seen[key] for key in cause.keys)

    @property
    def about(self) -> str:
        """What was done, in one sentence."""
        return '%s, of which %d differ, in %.0f seconds of processor time.' % (
            counted(self.counts['captures'], 'capture'), self.counts['differ'], self.seconds)

    def lines(self) -> List[str]:
        """Returns the table as text: three lines for each cause."""
        out = ['%s: %s' % (counted(len(self.causes), 'kind'), self.about)]
        for cause in self.causes:
            kind = cause.kind
            out += ['%5d  %s' % (self.often(cause), cause.sentence),
                    '       decided by %s; %s' % (kind.decision, tests_of(cause)),
                    '       %s: %s' % (size_of(cause), ' / '.join(kind.packets[-SHOWN:]))]
        return out

    def row(self, cause: Cause) -> str:
        """Returns the row of a cause."""
        kind, links = cause.kind, []
        for ending in FILES:
            name = '%s/%s%s' % (KINDS, cause.key, ending)
            if os.path.exists(self.store.path(name)):
                text = 'in the viewer' if ending == '.html' else ending[1:]
                links.append('<a href="%s">%s</a>' % (html.escape(name), text))
        lines = [size_of(cause), *(kind.lines[1:] or kind.packets)]
        return ROW % (self.often(cause), html.escape(cause.sentence), html.escape(tests_of(cause)) + self.others(cause),
                      html.escape(str(kind.decision)), html.escape('\n'.join(lines)), ' '.join(links),
                      self.picture(cause.key))

    def others(self, cause: Cause) -> str:
        """Returns the other kinds of a cause as a part of the page, with a link to the capture of each."""
        others = [(html.escape(key), html.escape(self.store.kinds[key].sentence)) for key in cause.keys[1:]]
        links = ['<a href="%s/%s.capture">%s</a>' % (KINDS, *pair) for pair in others]
        return '<br>also seen as: ' + '; '.join(links) if links else ''

    def picture(self, key: str) -> str:
        """Returns the picture of a kind as a part of the page."""
        path = self.store.path('%s/%s.png' % (KINDS, key))
        if not os.path.exists(path):
            return ''
        with open(path, 'rb') as file:
            return '<img alt="" src="data:image/png;base64,%s">' % base64.b64encode(file.read()).decode('ascii')

    def write(self, name: str) -> None:
        """Writes index.html and kinds.txt."""
        page = PAGE % dict(name=html.escape(name), title=counted(len(self.causes), 'kind') + ' of differences',
                           about=html.escape(self.about), rows='\n'.join(map(self.row, self.causes)))
        write_several([Content(self.store.path('index.html'), page.encode(errors='replace'), is_text=True),
                       Content(self.store.path('kinds.txt'), ('\n'.join(self.lines()) + '\n').encode(), is_text=True)])


def tests_of(cause: Cause) -> str:
    """Returns which tests of the suite show a cause."""
    return 'tests: ' + ', '.join(cause.kind.tests) if cause.kind.tests else 'no test has it'


def size_of(cause: Cause) -> str:
    """Returns the size of a capture."""
    words = counted(cause.kind.words, 'word')
    return words + ', which is large: nothing smaller shows it' if cause.kind.words > MOST_WORDS else words
