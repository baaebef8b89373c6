"""Converts a text log of port writes, port reads and DMA, as an emulator can print it, to a capture.

    psxgpu from-log < frame.log > frame.capture
    psxgpu from-log frame.log frame.capture

A line has one event. Numbers are hexadecimal, without 0x. # begins a comment:

    gp0 WORD ..              words written to 1F801810h
    gp1 WORD                 a word written to 1F801814h
    read [N]                 N reads of 1F801810h (decimal, 1 if left out)
    stat                     a read of 1F801814h
    ram ADDRESS WORD ..      main memory, before the DMA that reads it
    dma 2|6 MADR BCR CHCR    a start of channel 2 or 6, done at once
    begin MADR BCR CHCR      a start of channel 2 that continues at each turn
    turn [N], skip [N]       turns of it; reads whose words are not printed
    version 3                tall video memory

A log that begins in the middle of a game gives the state first, in this order:

    vram FILE                a dump of video memory: 1,048,576 bytes, or 2,097,152, which needs version 3
    settings E1 .. E6        the six current values
    display GP1 ..           control words: display mode, ranges, start, DMA direction, on or off

The capture has version 3 if a line asks for it, 2 if it has begin, turn or skip, otherwise 1. Status: 0 written, 2 an
error.
"""
import argparse
import tempfile

from psxgpu.command import ToolError, pour, reading, title
from psxgpu.log import Bad, from_log, lines_of
from psxgpu.output import Packed, Source, once
from psxgpu.packing import packing
from psxgpu.stream import HEADS


def arguments(parser: argparse.ArgumentParser) -> None:
    """Adds the arguments of this tool."""
    parser.add_argument('log', nargs='?', type=Source, default='-', metavar='LOG',
                        help='the log; standard input if left out')
    once(parser, 'capture', Packed, 'the capture to write; standard output if left out', '-')


def run(words: argparse.Namespace) -> None:
    """Writes the capture. Its records wait in a file until all lines are read: then the version is known."""
    name = title(words.log)
    with tempfile.TemporaryFile() as records:
        with reading(words.log) as source:
            try:
                log = from_log(lines_of(source, name), records)
            except Bad as bad:
                raise ToolError('%s: %s' % (name, bad)) from bad
        records.seek(0)
        with packing(words.capture, log.inputs) as target:
            target.write(HEADS[log.needs])
            pour(records, target)
            target.write(bytes(4))
