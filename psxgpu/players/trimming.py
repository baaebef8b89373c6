"""Some frames of a recording: the state before them, and their events."""
from __future__ import annotations

import argparse
import re
import tempfile
from typing import IO, Optional, Tuple

from psxgpu.command import pour
from psxgpu.corpus.scan import copy_first
from psxgpu.errors import counted
from psxgpu.files import is_snapshot
from psxgpu.players import player
from psxgpu.players.numbering import Ends

Range = Tuple[int, Optional[int]]


def frame_range(text: str) -> Range:
    """Returns the first and the last frame of `A-B`, `A-` or `A`. The last is None if it is left out after a hyphen."""
    found = re.fullmatch('([1-9][0-9]{0,9})(-([1-9][0-9]{0,9})?)?', text)
    if not found:
        raise argparse.ArgumentTypeError('%s is not a range of frames, as 12-14' % text)
    first = int(found[1])
    last = int(found[3]) if found[3] else None if found[2] else first
    if last is not None and last < first:
        raise argparse.ArgumentTypeError('%s: the first frame comes after the last' % text)
    return first, last


def events_of(ends: Ends, wanted: Range) -> Tuple[int, int]:
    """Returns the number of events before these frames, and their last event. Raises ValueError if they are not
    there, or if the recording is damaged."""
    if ends.damage:
        raise ValueError(ends.damage)
    first, last = wanted[0], wanted[1] or max(len(ends), 1)
    if max(first, last) > len(ends):
        raise ValueError('it has ' + counted(len(ends), 'frame'))
    return ends.events[first - 2] if first > 1 else 0, ends.events[last - 1] if wanted[1] else ends.last


def trim(path: str, before: int, last: int, program: str, target: IO[bytes]) -> None:
    """Writes the state after the first `before` events, and the events from there up to `last`. Raises ValueError if
    the capture is a snapshot: it has a state already."""
    if not before:
        copy_first(path, last, target)
        return
    if is_snapshot(path):
        raise ValueError('a snapshot: its first frame is 1, and it cannot be cut again')
    with tempfile.NamedTemporaryFile(prefix='psxgpu') as part:
        copy_first(path, last, part)
        part.flush()
        with player.playing(program, ['cut', str(before)], part.name) as run:
            pour(run.out, target)
            run.expect_whole()
