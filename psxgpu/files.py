"""Opens what a tool is given: a capture, a snapshot or a GPU dump, each plain or as .gz, .xz or .zst.

All of them are recognised by their first bytes. A dump is read as the capture that `psxgpu from-dump` makes of it. What
is none of these is returned as it is, so that its reader can say why it refuses it.
"""
from __future__ import annotations

import contextlib
import os
import tempfile
from typing import Iterator, Optional

from psxgpu.command import BLOCK, Readable, pour, reading
from psxgpu.dumps.format import NAME
from psxgpu.dumps.reader import Dump
from psxgpu.dumps.translation import Translation
from psxgpu.packing import PACKED, Peeked, Pieces, unpacked
from psxgpu.stream import HEADS, SNAPSHOT
from psxgpu.errors import title

RECORDINGS = (*HEADS.values(), SNAPSHOT)


def as_capture(peeked: Peeked, name: str) -> Readable:
    """Returns the bytes of a capture or snapshot: those of the file, or what its dump is as a capture."""
    if not peeked.first.startswith(NAME):
        return peeked
    pieces = iter(Translation(Dump(peeked, name)))
    return Pieces(lambda: next(pieces, b''))


@contextlib.contextmanager
def opened(path: str, name: Optional[str] = None) -> Iterator[Readable]:
    """The bytes of a capture or snapshot to read; `-` is standard input.

    `name` is what messages call the file. While it is read, `packing.Damaged` is raised if a packed file or a dump is
    at fault; the bytes before that come first.
    """
    name = name or title(path)
    with unpacked(path, name) as peeked:
        yield as_capture(peeked, name)


def read_capture(path: str, name: Optional[str] = None) -> bytes:
    """Returns all bytes of a capture or snapshot. Raises `packing.Damaged` if a packed file or a dump is at fault."""
    with opened(path, name) as file:
        return b''.join(iter(lambda: file.read(BLOCK), b''))


def is_plain(path: str) -> bool:
    """Returns whether a file of the disk is neither packed nor a dump."""
    if path == '-' or not os.path.isfile(path):
        return False
    with reading(path) as file:
        first = file.read(len(NAME))
    return not first.startswith((NAME, *PACKED))


@contextlib.contextmanager
def plain(path: str, name: Optional[str] = None) -> Iterator[str]:
    """The path of a file of the disk with the bytes of a capture or snapshot: `path` itself, or a copy that is removed
    at the end."""
    if is_plain(path):
        yield path
        return
    with tempfile.NamedTemporaryFile(prefix='psxgpu') as copy:
        with opened(path, name) as file:
            pour(file, copy)
        copy.flush()
        yield copy.name


def is_snapshot(path: str) -> bool:
    """Returns whether a file begins as a snapshot does."""
    with open(path, 'rb') as file:
        return file.read(len(SNAPSHOT)) == SNAPSHOT


def is_recording(path: str) -> bool:
    """Returns whether a file of the disk is a capture, a snapshot or a dump, packed or not."""
    if path == '-' or not os.path.isfile(path):
        return False
    with unpacked(path) as peeked:
        return peeked.first.startswith((NAME, *RECORDINGS))
