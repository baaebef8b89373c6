"""Captures as words to the ports alone, without main memory and DMA."""
from __future__ import annotations

import contextlib
import tempfile
from typing import Iterator, Optional

from psxgpu.command import ToolError, pour, reading
from psxgpu.players import player
from psxgpu.stream import NOT_FLAT, Stream


def is_flat(path: str) -> bool:
    """Returns whether a capture has port writes and reads alone, as far as it can be read."""
    with contextlib.suppress(ToolError), reading(path) as file:
        return not any(kind in NOT_FLAT for kind in Stream(file, path).kinds())
    return True


@contextlib.contextmanager
def flattened(path: str, program: Optional[str] = None) -> Iterator[str]:
    """The path of a flat capture with the words of `path`: `path` itself, or what psxgpu_tool makes of it. `program` is
    its path; it is looked for only if it is needed."""
    if is_flat(path):
        yield path
        return
    with tempfile.NamedTemporaryFile(prefix='psxgpu') as file:
        with player.playing(player.find(program), ['flat'], path) as run:
            pour(run.out, file)
            run.expect_whole()
        file.flush()
        yield file.name
