"""Test programs for the console: a capture as a PS-X EXE that runs on emulators and on a PlayStation.

    from psxgpu.console import executable
    exe = executable(capture, check=True)

docs/CONSOLE.md says what such a program does.
"""
import tempfile
from typing import Optional

from psxgpu.console.convert import Choices, Program, make
from psxgpu.console.source import Source
from psxgpu.console.stretch import Frames
from psxgpu.players import player

__all__ = ['Choices', 'Frames', 'Program', 'Source', 'executable', 'make']


def executable(capture: bytes, check: bool = False, blanks: str = 'marks', packs: bool = False,
               tool: Optional[str] = None) -> bytes:
    """Returns the bytes of the PS-X EXE that does to the GPU what a capture does.

    check: the program compares video memory and reads at its end, and says what differs.
    blanks: it waits for a vertical blank at 'marks', at 'flips' or at 'none'.
    packs: its orders are packed, even if there is room for them as they are.
    tool: the path of psxgpu_tool; else that of $PLAYER, of the path, or the one that is built here.
    ToolError, with the reason, if a console cannot run the capture.
    """
    with tempfile.NamedTemporaryFile(prefix='psxgpu') as file:
        file.write(capture)
        file.flush()
        return make(Source(player.find(tool), file.name, 'capture'), Choices(check, blanks, packs)).executable
