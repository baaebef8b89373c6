"""One reduced capture for each class of packets that differs, and a page with a table of them."""
from __future__ import annotations

import base64
import html
import os
import tempfile
from typing import Dict, List, NamedTuple, Tuple

from psxgpu import progress
from psxgpu.command import ToolError
from psxgpu.errors import counted
from psxgpu.output import Content, Tree, folder
from psxgpu.players.audit import Row
from psxgpu.players.named import Player
from psxgpu.reduce.faults import DumpsDiffer
from psxgpu.reduce.job import Job, Wanted
from psxgpu.reduce.report import files_of, report_lines
from psxgpu.viewing.linked import page_of_reduced

PAGE = '''<!doctype html>
<html lang="en"><meta charset="utf-8"><title>%(name)s, by classes</title><style>
body { font: 14px/1.4 sans-serif; margin: 2em auto; max-width: 90em; padding: 0 1em; color: #222 }
table { border-collapse: collapse } td, th { border-top: 1px solid #ccc; padding: 0.5em 1em; text-align: left }
td { vertical-align: top } pre { margin: 0; white-space: pre-wrap; font-size: 12px } td.number { text-align: right }
img { image-rendering: pixelated; background: #000; max-width: 40em }
</style>
<h1>%(name)s</h1>
<p>The first packet of each class that differs, reduced. Ours: %(ours)s, theirs: %(theirs)s. Pictures: ours, theirs, the
cells that differ.</p>
<table>
<tr><th>class</th><th>packets</th><th>differ</th><th>smallest capture</th><th>picture</th></tr>
%(rows)s
</table>
</html>
'''
LINE = ('<tr><td>%s</td><td class="number">%d</td><td class="number">%d</td><td><pre>%s</pre>%s</td>'
        '<td>%s</td></tr>')


class Entry(NamedTuple):
    """A class: its row of the audit, the lines of its reduced capture, and its files."""
    kind: str
    row: Row
    lines: List[str]
    files: List[Content]


def reduced_entry(kind: str, row: Row, flat: str, name: str, players: Tuple[Player, Player]) -> Entry:
    """Reduces the first packet of a class that differs."""
    wanted = Wanted(DumpsDiffer(), [], keep=True, event=row.event)
    try:
        with Job(*players, wanted) as job:
            found = job.result(flat, name)
    except ToolError as error:
        return Entry(kind, row, [str(error)], [])
    if found is None:
        return Entry(kind, row, ['not shown by dumps'], [])
    notes = ['ours: ' + players[0].text, 'theirs: ' + players[1].text]
    stem = kind.replace(' ', '-')
    return Entry(kind, row, report_lines(found), [*files_of(found, stem, notes), *page_of_reduced(found, stem, notes)])


def picture(files: List[Content]) -> str:
    """Returns the picture of an entry as a part of the page."""
    return ''.join('<img alt="" src="data:image/png;base64,%s">' % base64.b64encode(file.data).decode('ascii')
                   for file in files if file.path.endswith('.png'))


def page(name: str, players: Tuple[Player, Player], entries: List[Entry]) -> str:
    """Returns the page."""
    lines = []
    for entry in entries:
        links = ' '.join('<a href="%s">%s</a>' % (html.escape(file.path), os.path.splitext(file.path)[1][1:])
                         for file in entry.files)
        lines.append(LINE % (html.escape(entry.kind), entry.row.packets, entry.row.packets - entry.row.equal,
                             html.escape('\n'.join(entry.lines)), links, picture(entry.files)))
    return PAGE % dict(name=html.escape(name), ours=html.escape(players[0].text), theirs=html.escape(players[1].text),
                       rows='\n'.join(lines))


def reduce_classes(data: bytes, name: str, rows: Dict[str, Row], ours: Player, theirs: Player, path: Tree) -> None:
    """Reduces each class of an audit that differs, in the flat capture `data`, and writes a folder with the page."""
    with folder(path) as out, tempfile.NamedTemporaryFile(prefix='psxgpu') as flat:
        flat.write(data)
        flat.flush()
        kinds = sorted(kind for kind in rows if rows[kind].differ)
        entries = [reduced_entry(kind, rows[kind], flat.name, name, (ours, theirs))
                   for kind in progress.counted(kinds, 'reduce')]
        for entry in entries:
            for file in entry.files:
                out.put(file.path, file.data)
        index = out.put('index.html', page(name, (ours, theirs), entries).encode(errors='replace'))
    print('%s reduced: %s' % (counted(sum(bool(entry.files) for entry in entries), 'class', 'es'), index))
