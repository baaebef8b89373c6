"""What psxgpu_tool writes of a capture up to an event."""
from __future__ import annotations

import tempfile
from typing import Optional

from psxgpu.corpus.scan import copy_first, past_head, records
from psxgpu.errors import ToolError
from psxgpu.players import player


def check_event(path: str, event: int) -> None:
    """Raises ToolError if a capture or snapshot has no event of this number, or is damaged before it. 0 is the time
    before the first event."""
    with open(path, 'rb') as file:
        try:
            first = done = past_head(file)
            for _, count, _ in records(file):
                if done >= event:
                    break
                done += count
        except ValueError as error:
            raise ToolError(str(error)) from error
    if event > done:
        raise ToolError('it has %d event%s' % (done, 's' * (done != 1)))
    if event < first:
        raise ToolError('it begins after event %d' % first)


def output_at(path: str, program: str, mode: str, event: Optional[int]) -> bytes:
    """Returns what a mode writes of a capture, or of its events up to the one of this number. Raises ToolError if there
    is no such event, and with the player's line if it refuses the capture."""
    if event is None:
        return whole_output(path, program, mode)
    check_event(path, event)
    with tempfile.NamedTemporaryFile(prefix='psxgpu') as part:
        copy_first(path, event, part)
        part.flush()
        return whole_output(part.name, program, mode)


def whole_output(path: str, program: str, mode: str) -> bytes:
    """Returns what a mode writes of a capture. Raises ToolError with the player's line if it refuses the capture."""
    with player.playing(program, [mode], path) as run:
        data = run.out.read()
        run.expect_whole()
        return data
