"""What a page has to know of a recording: its first and last event, and the rows of its video memory."""
from __future__ import annotations

import io
from typing import NamedTuple

from psxgpu.corpus.scan import past_head, records
from psxgpu.stream import HEADS, SNAPSHOT

TALL = 3                    # the version of captures with 1024 rows of video memory
HEIGHT = 512


class Extent(NamedTuple):
    """The number of events before a recording, its last event, and the rows of its video memory."""
    before: int
    last: int
    rows: int


def rows_of(data: bytes) -> int:
    """Returns the rows of video memory of a capture or snapshot."""
    if data.startswith(SNAPSHOT):
        return int.from_bytes(data[8:12], 'little')
    return 2 * HEIGHT if data.startswith(HEADS[TALL]) else HEIGHT


def extent_of(data: bytes) -> Extent:
    """Returns the extent of a capture or snapshot. Raises ValueError if it is damaged."""
    file = io.BytesIO(data)
    before = past_head(file)
    return Extent(before, before + sum(size for _, size, _ in records(file)), rows_of(data))
