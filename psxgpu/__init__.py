"""Tools and modules for recorded graphics work of the PlayStation.

`psxgpu.capture` writes and reads captures, `psxgpu.packets` splits words into packets and names their fields,
`psxgpu.machine` is the proved machine of libpsxgpu, and `psxgpu.commands` has one module for each `psxgpu NAME`. The
names of `psxgpu.machine` are also those of the package: `psxgpu.Machine`, `psxgpu.play`, `psxgpu.Recording`. They load
when first used.
"""
from __future__ import annotations

TYPE_CHECKING = False       # no module loads before `psxgpu.__main__` has the signals
if TYPE_CHECKING:
    from typing import Any, List

    from psxgpu.machine import (MODES, Error, Frame, Machine, Missing, Note, OutOfMemory, Packet, Record, Recording,
                                Refused, Registers, Snapshot, play, play_size, play_to)
    from psxgpu.machine.library import library

__version__ = '1.0.0'
__all__ = ['Error', 'Frame', 'MODES', 'Machine', 'Missing', 'Note', 'OutOfMemory', 'Packet', 'Record', 'Recording',
           'Refused', 'Registers', 'Snapshot', '__version__', 'library', 'play', 'play_size', 'play_to']


def __getattr__(name: str) -> Any:
    """Returns a public name of `psxgpu.machine`."""
    if name not in __all__:                 # a module of the package, which is about to be imported, among others
        raise AttributeError('module %r has no attribute %r' % (__name__, name))
    import importlib
    return getattr(importlib.import_module('psxgpu.machine'), name)


def __dir__() -> List[str]:
    """Returns the public names."""
    return sorted(__all__)
