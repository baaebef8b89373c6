"""The page of a finding: the events of its first frame that differs, with the state before them, in the viewer."""
from __future__ import annotations

import contextlib
import io

from psxgpu.corpus.findings import Finding
from psxgpu.corpus.scan import copy_first, frames
from psxgpu.errors import ToolError
from psxgpu.files import is_snapshot
from psxgpu.output import Folder
from psxgpu.players import player
from psxgpu.players.trimming import trim
from psxgpu.viewing.linked import Shown, case_of, page_of

MOST = 1 << 25              # bytes of what is inside


def events_of(finding: Finding, path: str) -> bytes:
    """Returns the events up to the one at which a finding differs. If the same frames come before, a state replaces
    them."""
    last = frames(path)[1]
    end = min(filter(None, (finding.event, finding.high, last)))
    out = io.BytesIO()
    with contextlib.suppress(ToolError):
        if finding.low and not is_snapshot(path):
            trim(path, finding.low, end, player.find(), out)
            return out.getvalue()
    out = io.BytesIO()
    copy_first(path, end, out)
    return out.getvalue()


def name_in(out: Folder, finding: Finding) -> str:
    """Returns a name that no file of the folder has."""
    name, number = finding.name.replace('/', '-'), 1
    while (name if number == 1 else '%s-%d' % (name, number)) + '-viewer.html' in out.names:
        number += 1
    return (name if number == 1 else '%s-%d' % (name, number)) + '-viewer.html'


def link_page(finding: Finding, path: str, out: Folder) -> None:
    """Writes the page of a finding that says `different`, if the viewer is built and the page is not too large."""
    try:
        data = events_of(finding, path)
        note = '\n'.join([finding.name, *finding.lines[:3]])
        shown = Shown(finding.dump, finding.cell) if finding.dump else Shown()
        page = page_of([case_of(finding.name, data, shown, note)]) if len(data) <= MOST else None
    except (ValueError, OSError) as error:
        finding.lines.append('no page: %s' % error)
        return
    if page:
        finding.page = name_in(out, finding)
        out.put(finding.page, page)
