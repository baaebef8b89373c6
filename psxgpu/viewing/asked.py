"""The arguments of `psxgpu page` and `psxgpu view`, and the case that they name."""
from __future__ import annotations

import argparse
import io
import os
import tempfile
from typing import Optional, Tuple

from psxgpu.command import BLOCK, ToolError, title
from psxgpu.dumps.format import NAME as DUMP
from psxgpu.files import as_capture
from psxgpu.output import Source, Text
from psxgpu.packing import ENDINGS, Peeked, unpacked
from psxgpu.players import player
from psxgpu.players.numbering import marks_or_flips
from psxgpu.players.trimming import Range, events_of, frame_range, trim
from psxgpu.viewing.extent import Extent, extent_of
from psxgpu.viewing.place import VIEWS, Place, address, cell, refuse_cell, zoom
from psxgpu.viewing.template import Case, Recording


def arguments(parser: argparse.ArgumentParser) -> None:
    """Adds what both tools take."""
    parser.add_argument('captures', nargs='+', type=Source, metavar='CAPTURE',
                        help='a capture, a snapshot or a GPU dump, or two to compare; - is standard input')
    parser.add_argument('--at', type=address, metavar='EVENT',
                        help='open after this event (2947), or after one of its items (2947.60)')
    parser.add_argument('--view', choices=VIEWS, help='the view to open')
    parser.add_argument('--cell', type=cell, metavar='X,Y', help='choose this cell of video memory')
    parser.add_argument('--zoom', type=zoom, metavar='SCALE',
                        help='the scale; with SCALE,X,Y also the pixel of the view in the middle')
    parser.add_argument('--note', type=Text, default='', metavar='TEXT', help='a line above the view')
    parser.add_argument('--frame', type=frame_range, metavar='N',
                        help='this frame alone, with the state before it, or the frames A-B')
    parser.add_argument('--viewer', type=Source, metavar='FILE',
                        help='the viewer to use (default: that of the package or of the checkout)')
    player.argument(parser)


def whole(file: Peeked) -> bytes:
    """Returns all bytes of a file."""
    return b''.join(iter(lambda: file.read(BLOCK), b''))


def capture_of(data: bytes, name: str) -> bytes:
    """Returns the bytes of a file as those of a capture or snapshot: what a GPU dump is as one."""
    if not data.startswith(DUMP):
        return data
    file = as_capture(Peeked(io.BytesIO(data)), name)
    return b''.join(iter(lambda: file.read(BLOCK), b''))


def name_of(path: str) -> str:
    """Returns the name of a file without its folder and its packing."""
    name, ending = os.path.splitext(os.path.basename(title(path)))
    return name if ending in ENDINGS else name + ending


def trimmed(data: bytes, name: str, frames: Range, program: str) -> Recording:
    """Returns some frames of a capture, with the state before them."""
    out = io.BytesIO()
    with tempfile.NamedTemporaryFile(prefix='psxgpu') as file:
        file.write(data)
        file.flush()
        before, last = events_of(marks_or_flips(program, file.name), frames)
        trim(file.name, before, last, program, out)
    number = str(frames[0]) if frames[0] == frames[1] else '%d-%s' % (frames[0], frames[1] or '')
    return Recording('%s-frame-%s.%s' % (os.path.splitext(name)[0], number, 'snapshot' if before else 'capture'),
                     out.getvalue())


def recording_of(path: str, words: argparse.Namespace) -> Tuple[Recording, Extent]:
    """Returns a file as a page has it inside, or the frames of it that are asked for, and its extent. Raises ToolError
    if it is not a recording, or damaged."""
    name = name_of(path)
    with unpacked(path) as file:
        data = whole(file)
    capture = capture_of(data, title(path))
    try:
        extent = extent_of(capture)
        if not words.frame:
            return Recording(name, data), extent
        found = trimmed(capture, name, words.frame, player.find(words.player))
        return found, extent_of(found.data)
    except ValueError as error:
        raise ToolError('%s: %s' % (title(path), error)) from error


def items_of(data: bytes, event: int, program: str) -> Optional[int]:
    """Returns how many packets an event of a capture completes, or None if it completes none."""
    with tempfile.NamedTemporaryFile(prefix='psxgpu') as file:
        file.write(data)
        file.flush()
        number = b'%d ' % event
        with player.playing(program, ['list'], file.name) as listed:
            return sum(line.startswith(number) for line in listed.out) or None


def refuse_place(place: Place, recording: Recording, extent: Extent, program: Optional[str]) -> None:
    """Raises ToolError if a recording has no such place."""
    refuse_cell(place, extent.rows, recording.name)
    event = place.event
    if event is not None and not extent.before <= event <= extent.last:
        raise ToolError('%s: there is no event %d: it has those from %d to %d'
                        % (recording.name, event, extent.before + 1, extent.last))
    if event is not None and place.item:
        items = items_of(capture_of(recording.data, recording.name), event, player.find(program))
        if items is not None and place.item > items:
            raise ToolError('%s: there is no item %d of event %d: it has %d'
                            % (recording.name, place.item, event, items))


def case_of(words: argparse.Namespace) -> Case:
    """Returns the case that the arguments name. Raises ToolError if it names a place that is not there."""
    if len(words.captures) > 2:
        raise ToolError('at most two recordings: the second is compared with the first')
    found = [recording_of(path, words) for path in words.captures]
    place = Place(words.at or '', words.view or '', words.cell, words.zoom or '')
    refuse_place(place, *found[0], words.player)
    return Case(found[0][0].name, [recording for recording, _ in found], place, words.note)
