"""The pages that reports link: a capture at the place where a player differs, compared with what the player drew."""
from __future__ import annotations

import contextlib
import os
from typing import List, NamedTuple, Optional, Sequence

from psxgpu.command import ToolError
from psxgpu.difference import compared
from psxgpu.output import Content
from psxgpu.reduce.report import Reduced
from psxgpu.viewing.extent import extent_of
from psxgpu.viewing.place import Cell, Place
from psxgpu.viewing.template import Case, Recording, found, page, text_of

SCALE = '8'
THEIRS = 'theirs.vram'


class Shown(NamedTuple):
    """What a player did otherwise: its dump of video memory and the first cell that differs, if cells differ."""
    theirs: Optional[bytes] = None
    cell: Optional[Cell] = None


def file_of(name: str) -> str:
    """Returns the name of the file of a case."""
    name = name.rpartition('/')[2]
    return name if os.path.splitext(name)[1] else name + '.capture'


def case_of(name: str, data: bytes, shown: Shown, note: str) -> Case:
    """Returns a case that opens after the last event of a capture: `data`, the bytes of it."""
    files = [Recording(file_of(name), data)]
    if shown.theirs is None:
        return Case(name, files, Place(str(extent_of(data).last)), note)
    place = Place(str(extent_of(data).last), 'memory', shown.cell, SCALE)
    return Case(name, [*files, Recording(THEIRS, shown.theirs)], place, note)


def page_of(cases: Sequence[Case], maker: str = 'psxgpu page') -> Optional[bytes]:
    """Returns a page with these cases inside; None if the viewer is not built, or if there is no case."""
    path = found()
    with contextlib.suppress(ToolError):
        return page(text_of(path), cases, maker) if path and cases else None
    return None


def page_of_reduced(reduced: Reduced, name: str, notes: Sequence[str]) -> List[Content]:
    """Returns NAME.html, a page with a reduced capture and what THEIRS drew; nothing if the viewer is not built.
    `notes`: lines of the note above the view."""
    shown = Shown(reduced.dumps[1], compared(*reduced.dumps).places[0]) if reduced.dumps else Shown()
    note = '\n'.join([reduced.headline, *reduced.differs[:1], *notes])
    data = page_of([case_of(name.rpartition('/')[2], reduced.data, shown, note)])
    return [Content(name + '.html', data, is_text=True)] if data else []
