"""Writes the first N events of a capture, or the rest, as a capture.

    psxgpu first 300 mine.capture > begin.capture
    psxgpu first 300 mine.capture --rest > rest.capture

`psxgpu join begin.capture rest.capture` writes the whole again. The rest begins from zeros. To begin from the state
after the first events, use `psxgpu_tool cut N`, which writes a snapshot.

Status: 0 written, 2 an error, also if the capture has fewer than N events. Then no file is written, and an old one
stays. If the capture is cut or damaged before event N, OUTPUT has the events before that, and the status is 2.
"""
import argparse
from typing import Iterable, Iterator

from psxgpu.command import ToolError, decimal, title
from psxgpu.errors import counted as number_of
from psxgpu.files import opened
from psxgpu.output import Packed, Source, once
from psxgpu.packing import packing
from psxgpu.stream import HEADS, Record, Stream, count_of, encode, first_events, later_events


def arguments(parser: argparse.ArgumentParser) -> None:
    """Adds the arguments of this tool."""
    parser.add_argument('events', type=decimal(0, 1 << 62), metavar='N', help='the number of events')
    parser.add_argument('capture', nargs='?', type=Source, default='-', metavar='CAPTURE',
                        help='standard input if left out')
    once(parser, 'output', Packed, 'the capture to write; standard output if left out', '-')
    parser.add_argument('--rest', action='store_true', help='write the events after the first N')


class Counted:
    """The records of a stream, and the number of events that were read of it."""

    def __init__(self, stream: Iterable[Record]) -> None:
        self.stream, self.events = stream, 0

    def __iter__(self) -> Iterator[Record]:
        for record in self.stream:
            self.events += count_of(*record[:2])
            yield record


def run(words: argparse.Namespace) -> None:
    """Writes the events. If the capture is damaged before the last of them, those before the fault."""
    name, fault = title(words.capture), None
    with packing(words.output, [words.capture]) as target, opened(words.capture) as source:
        stream = Stream(source, name)
        counted = Counted(stream)
        target.write(HEADS[stream.version])
        try:
            for record in (later_events if words.rest else first_events)(counted, words.events):
                target.write(encode(*record))
        except ToolError as error:
            if counted.events <= (words.events if words.rest else 0):
                raise
            fault = error
        target.write(bytes(4))
        if fault is None and counted.events < words.events:
            raise ToolError('%s: it has %s' % (name, number_of(counted.events, 'event')))
    if fault:
        raise ToolError('%s; the %s before it' % (fault, number_of(counted.events, 'event')) +
                        (' are kept' if counted.events > 1 else ' is kept'))
