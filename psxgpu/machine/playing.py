"""A whole capture, played by one call of libpsxgpu."""
import contextlib
import ctypes
import functools
import io
import os
from typing import Any, Callable, Iterator, Optional, Protocol, Tuple, Union

from psxgpu.files import read_capture
from psxgpu.machine.library import Ended, Output, check, library
from psxgpu.machine.values import Bytes, Path, bytes_of, cell_of

MODES = {name: number for number, name in enumerate(
    ('play', 'vram', 'shot', 'list', 'report', 'frames', 'frames marks', 'sums', 'sums marks', 'pixel'))}
PIECE = 1 << 16             # bytes that a sink receives at once
Source = Union[Path, Bytes]
Cell = Optional[Tuple[int, int]]


class Writable(Protocol):
    """A binary file that is open for writing, or what has its `write`."""

    def write(self, data: bytes, /) -> Any:
        """Writes bytes."""


Sink = Union[Writable, Callable[[bytes], Any]]


def data_of(source: Source) -> bytes:
    """Returns the bytes of a capture or snapshot, given as a path or as bytes. A file may also be packed (.gz, .xz,
    .zst) or a GPU dump. Raises ValueError if such a file is damaged."""
    return read_capture(os.fsdecode(source)) if isinstance(source, (str, os.PathLike)) else bytes_of(source)


def play(source: Source, mode: str = 'vram', cell: Cell = None) -> bytes:
    """Returns what `psxgpu_tool` writes with this mode of a capture or a snapshot, given as a path or as bytes. A path
    may also be that of a GPU dump, and of a packed file (.gz, .xz, .zst). `cell` is (x, y), for `pixel`. Raises Refused
    if the program refuses it; its `output` is what was written before. Raises ValueError if a packed file or a dump is
    damaged, and for a cell outside of video memory."""
    with played(source, mode, cell) as (held, ended):
        room = ctypes.create_string_buffer(ended.written)
        library().output_copy(held, 0, room, len(room))
    output = ctypes.string_at(room, len(room))
    check(ended.code, ended, output)
    return output


def play_size(source: Source, mode: str = 'vram', cell: Cell = None) -> int:
    """Returns the number of bytes that `play` returns of the same arguments, and keeps none of them. Raises what `play`
    raises. Refused has the number of bytes before the refusal as `written`, and no `output`."""
    ended = Ended()
    library().play_size(*arguments_of(source, mode, cell), ended)
    check(ended.code, ended)
    return int(ended.written)


def play_to(source: Source, sink: Sink, mode: str = 'vram', cell: Cell = None) -> int:
    """Passes what `play` returns of the same arguments to `sink`, in order, in pieces of at most 64 KiB. `sink` is a
    binary file, or a function of bytes. Returns the number of bytes. Raises what `play` raises, after the bytes before
    the refusal were passed: Refused has their number as `written`, and no `output`. Raises what `sink` raises, which is
    not called again."""
    write = writer_of(sink)
    with played(source, mode, cell) as (held, ended):
        for piece in pieces_of(held):
            write(piece)
    check(ended.code, ended)
    return int(ended.written)


def arguments_of(source: Source, mode: str, cell: Cell) -> Tuple[int, int, bytes, int]:
    """Returns the first arguments of the calls that play: the mode's number, the cell, the bytes and their number."""
    if mode not in MODES:
        raise ValueError('mode %r is none of: %s' % (mode, ', '.join(MODES)))
    if (cell is not None) != (mode == 'pixel'):
        raise ValueError('a cell belongs to the mode pixel')
    x, y = cell_of(*(cell or (0, 0)))
    data = data_of(source)
    return MODES[mode], x | y << 16, data, len(data)


@contextlib.contextmanager
def played(source: Source, mode: str, cell: Cell) -> Iterator[Tuple[Output, Ended]]:
    """Plays once. Yields the output in memory of the library, and how playing ended. Frees the output afterwards."""
    held, ended = Output(), Ended()
    library().play_output(*arguments_of(source, mode, cell), held, ended)
    try:
        yield held, ended
    finally:
        library().output_free(held)


def pieces_of(held: Output) -> Iterator[bytes]:
    """Yields the output in pieces of at most PIECE bytes."""
    piece, offset = ctypes.create_string_buffer(PIECE), 0
    while count := library().output_copy(held, offset, piece, PIECE):
        yield ctypes.string_at(piece, count)
        offset += count


def writer_of(sink: Sink) -> Callable[[bytes], Any]:
    """Returns the function that takes the bytes for a sink. An unbuffered file may take a part of them: it is called
    until it has all. Raises TypeError if `sink` is no sink."""
    if isinstance(sink, io.RawIOBase):
        return functools.partial(write_raw, sink)
    write = getattr(sink, 'write', sink)
    if not callable(write):
        raise TypeError('neither a file nor a function: %r' % (sink,))
    return write


def write_raw(file: io.RawIOBase, piece: bytes) -> None:
    """Writes a whole piece to an unbuffered file. Raises BlockingIOError if it would wait."""
    rest = memoryview(piece)
    while rest:
        count = file.write(rest)
        if not count:
            raise BlockingIOError('the file takes no bytes now')
        rest = rest[count:]
