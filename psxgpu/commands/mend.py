"""Completes a recording that was cut, or whose emulator ended before it.

    psxgpu mend killed.capture
    psxgpu mend killed.capture whole.capture
    psxgpu mend killed.capture.gz whole.capture.gz

All events that are there are kept, also those of a record that is cut, and End follows. Without OUTPUT, the recording
itself becomes the whole one. If something in the middle is not a record, the events before it are kept; this needs an
OUTPUT, since the recording has more. So does a recording that is packed (.gz, .xz, .zst); OUTPUT is packed if its name
ends so. Of packed bytes that are cut or damaged, what can be unpacked is kept. Status: 0 it is whole now; 2 an error,
and the recording stays as it is.
"""
import argparse
import contextlib
import tempfile
from typing import IO, Iterator, Tuple

from psxgpu import progress
from psxgpu.command import ToolError, pour
from psxgpu.mending import whole_of
from psxgpu.output import Packed, Source, once, writing
from psxgpu.packing import MOST_FIRST, PACKED, Damaged, packing, unpacked


def arguments(parser: argparse.ArgumentParser) -> None:
    """Adds the arguments of this tool."""
    parser.add_argument('capture', type=Source, metavar='CAPTURE', help='the recording')
    once(parser, 'output', Packed, 'the capture to write (default: the recording itself)')


class Beginning:
    """The first `left` bytes of a file."""

    def __init__(self, file: IO[bytes], left: int) -> None:
        self.file, self.left = file, left

    def read(self, size: int = -1, /) -> bytes:
        """Returns the next bytes."""
        data = self.file.read(min(size, self.left) if size >= 0 else self.left)
        self.left -= len(data)
        return data


def is_packed(path: str) -> bool:
    """Returns whether a file is packed, by its first bytes."""
    with open(path, 'rb') as file:
        return file.read(MOST_FIRST).startswith(PACKED)


@contextlib.contextmanager
def recording(path: str) -> Iterator[Tuple[IO[bytes], str]]:
    """The recording as a file that can be sought, and why a packed one cannot be unpacked to its end."""
    if not is_packed(path):
        with open(path, 'rb') as file:
            yield file, ''
        return
    damage = ''
    with tempfile.TemporaryFile(prefix='psxgpu') as copy, unpacked(path) as source:
        try:
            pour(source, copy)
        except Damaged as fault:
            damage = str(fault)
        yield copy, damage


def run(words: argparse.Namespace) -> None:
    """Writes the whole recording, and prints whether it was whole."""
    output = words.output or words.capture
    if output in ('-', '/dev/stdout'):
        raise ToolError('%s: name a file' % output)
    if words.output is None and is_packed(words.capture):
        raise ToolError('%s is packed: name an output, as in psxgpu mend %s whole.capture' % ((words.capture,) * 2))
    with recording(words.capture) as (file, damage):
        whole = whole_of(file, words.capture)
        if whole.damage and not words.output:
            raise ToolError('%s: %s: name an output for what is before it, as in psxgpu mend %s whole.capture'
                            % (words.capture, whole.damage, words.capture))
        if words.output or whole.rest:
            file.seek(0)
            write = packing(output, [words.capture]) if words.output else writing(output)
            with progress.following(file, words.capture), write as target:
                pour(Beginning(file, whole.size), target)
                target.write(whole.rest)
    lines = ['made whole' if whole.rest else 'it was whole']
    if whole.damage:
        lines.append('all before %s' % whole.damage)
    if damage:
        lines.append('all that can be unpacked of %s' % damage)
    print(': '.join(lines))
