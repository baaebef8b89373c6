"""Writes some frames of a capture, with the state before them: a snapshot that plays as the whole does there.

    psxgpu trim --frames 12-14 mine.capture -o part.snapshot
    psxgpu trim --frames 30- mine.psxgpu.zst | psxgpu_tool shot > last.ppm

The output has the state before the first of these frames, and the events up to the end of the last one. Events keep
their numbers. Frames are numbered from 1. A frame ends at each mark (GP1(3Fh), which recorders write at a vertical
blank) or, in a capture without marks, at each flip: a write of the display start. What follows the last end is a frame
too if it has a packet. `A-` reaches to the last event. If the first frame is 1, nothing is before it, and the output is
a capture. To count events, use `psxgpu first` and `psxgpu_tool cut`.

Status: 0 written, 2 an error, also if the capture has fewer frames. Then no file is written, and an old one stays.
"""
import argparse

from psxgpu.command import ToolError, title
from psxgpu.files import plain
from psxgpu.output import Packed, Source, once
from psxgpu.packing import packing
from psxgpu.players import player
from psxgpu.players.numbering import marks_or_flips
from psxgpu.players.trimming import events_of, frame_range, trim


def arguments(parser: argparse.ArgumentParser) -> None:
    """Adds the arguments of this tool."""
    parser.add_argument('capture', type=Source, metavar='CAPTURE',
                        help='a capture or a dump of a GPU; - is standard input')
    parser.add_argument('--frames', type=frame_range, required=True, metavar='A-B', help='the first and the last frame')
    once(parser, 'output', Packed, 'the snapshot to write; standard output if left out', '-')
    parser.add_argument('--flips', action='store_true', help='a frame ends at each flip, even if there are marks')
    player.argument(parser)


def run(words: argparse.Namespace) -> None:
    """Writes the frames."""
    program, name = player.find(words.player), title(words.capture)
    with packing(words.output, [words.capture]) as target, plain(words.capture) as path:
        try:
            ends = marks_or_flips(program, path, words.flips)
            trim(path, *events_of(ends, words.frames), program, target)
        except ValueError as error:
            raise ToolError('%s: %s' % (name, error)) from error
