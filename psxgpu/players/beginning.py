"""The beginning of a flat capture: a difference is mostly near it, and of a long recording no more is looked at."""
from __future__ import annotations

import contextlib
import tempfile
from typing import IO, Callable, Iterator, Tuple

from psxgpu.stream import HEADS, READ, SKIP, Stream, count_of, encode, first_events

FIRST_LOOK = 4096           # events that are looked at first


def write_first(path: str, name: str, events: int, file: IO[bytes]) -> bool:
    """Writes the first events of a flat capture, in version 1, or 3 if video memory is tall. Reads whose words are not
    shown become reads. Returns whether there are that many events."""
    with open(path, 'rb') as source:
        stream, count = Stream(source, name), 0
        file.write(HEADS[3 if stream.version == 3 else 1])
        for kind, number, words in first_events(stream, events):
            file.write(encode(READ if kind == SKIP else kind, number, words))
            count += count_of(kind, number)
    file.write(bytes(4))
    file.flush()
    return count == events


def first_bytes(path: str, name: str, events: int) -> bytes:
    """Returns the first events of a flat capture as the bytes of a capture."""
    with tempfile.TemporaryFile(prefix='psxgpu') as file:
        write_first(path, name, events, file)
        file.seek(0)
        return file.read()


@contextlib.contextmanager
def beginning(path: str, name: str, shows: Callable[[str], bool], events: int = FIRST_LOOK,
              grows: bool = True) -> Iterator[Tuple[str, bool]]:
    """Yields the path of a flat capture of the first events, and whether these are all. If it `grows`, it is the
    shortest of `events`, twice as many .. for which `shows(path)` is true, or all."""
    while True:
        with tempfile.NamedTemporaryFile(prefix='psxgpu') as file:
            there_is_more = write_first(path, name, events, file)
            if not (grows and there_is_more) or shows(file.name):
                yield file.name, not there_is_more
                return
        events *= 2
