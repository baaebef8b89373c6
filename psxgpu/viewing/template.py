"""Finds the viewer, and makes a page of it: the same page with cases inside."""
from __future__ import annotations

import base64
import functools
import gzip
import io
import json
import os
from typing import List, NamedTuple, Optional, Sequence

from psxgpu.command import ToolError
from psxgpu.viewing.place import Place

PACKAGE = os.path.dirname(os.path.dirname(os.path.abspath(__file__)))
TOP = os.path.dirname(PACKAGE)
NAME = os.path.join('web', 'viewer.html')
SHARED = os.path.join('share', 'psxgpu-tool', NAME)
HEAD = '<!doctype html>\n'
INSIDE = '<script type="application/json" id="inside">'     # web/viewer/pack.py
END = '</script>'
LEVEL = 6
MOST = 1 << 28              # bytes of a packed recording: with its base64, the page has to be one string of a browser
ESCAPED = {ord(letter): '\\u%04x' % ord(letter) for letter in '<>&'}


class Recording(NamedTuple):
    """What a page has inside: a capture, a snapshot, a GPU dump, or a dump of video memory to compare with."""
    name: str
    data: bytes


class Case(NamedTuple):
    """A recording, and perhaps what it is compared with; the place where it opens, and a note above the view."""
    name: str
    files: Sequence[Recording]
    place: Place = Place()
    note: str = ''


def places() -> List[str]:
    """Returns where the viewer may be: in the package, in the checkout, or where `make install` puts it."""
    above = [os.path.normpath(os.path.join(PACKAGE, *['..'] * count)) for count in (3, 4)]
    return [os.path.join(PACKAGE, 'viewing', 'viewer.html'), os.path.join(TOP, NAME),
            *(os.path.join(folder, SHARED) for folder in above)]


def found() -> Optional[str]:
    """Returns the path of the viewer, or None if it is not built."""
    return next((path for path in places() if os.path.isfile(path)), None)


@functools.lru_cache(maxsize=1)
def text_of(path: str) -> str:
    """Returns the text of a viewer. Raises ToolError if no recording can be put into it."""
    with open(path, 'rb') as file:
        text = file.read().decode('utf-8', 'replace')
    if not text.startswith(HEAD) or text.count(INSIDE + END) != 1:
        raise ToolError('%s: not the viewer, or one of another version: `make web` builds it' % path)
    return text


def viewer(given: Optional[str] = None) -> str:
    """Returns the text of the viewer: `given`, or the one that is built. Raises ToolError if there is none."""
    path = given or found()
    if path is None:
        is_checkout = os.path.isdir(os.path.join(TOP, 'web'))
        hint = 'build it with `make web`' if is_checkout else 'install a package that has it'
        raise ToolError('the viewer is missing: %s, or name it with --viewer' % hint)
    return text_of(path)


def packed(recording: Recording) -> str:
    """Returns the bytes of a recording, packed by gzip, in base64. The same bytes give the same text."""
    out = io.BytesIO()
    with gzip.GzipFile('', 'wb', LEVEL, out, 0) as file:
        file.write(recording.data)
    if out.tell() > MOST:
        raise ToolError('%s: too long for a page: take some of its frames with --frame' % recording.name)
    return base64.b64encode(out.getvalue()).decode()


def page(text: str, cases: Sequence[Case], maker: str = 'psxgpu page') -> bytes:
    """Returns the viewer `text` with cases inside; the first is opened. `maker`: the tool, for the first line."""
    inside = [{'name': case.name, 'place': case.place.link, 'note': case.note,
               'files': [{'name': file.name, 'bytes': packed(file)} for file in case.files]} for case in cases]
    data = json.dumps(inside, separators=(',', ':')).translate(ESCAPED)
    body = text[len(HEAD):].replace(INSIDE + END, INSIDE + data + END)
    return ('%s<!-- %s -->\n%s' % (HEAD.rstrip('\n'), maker, body)).encode()
