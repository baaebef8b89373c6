"""Converts a capture to a GPU dump for DuckStation and PCSX-Redux.

    psxgpu to-dump mine.capture mine.psxgpu
    psxgpu to-dump mine.capture mine.psxgpu.zst --game SLUS-00000

A GP0 command with all its words is a packet of the dump, and the mark of a frame (GP1(3Fh)) is a VSync. A read is a
discard. A capture with main memory and DMA is flattened first. Left out and counted are reads of the status, and the
control words that DuckStation does not record (04h, DMA direction, and all from 10h on; --all keeps them).
docs/DUMPS.md has the details.

Status: 0 written, 2 an error.
"""
from __future__ import annotations

import argparse
import sys

from psxgpu.command import decimal, reading
from psxgpu.dumps.export import About, Export
from psxgpu.files import plain
from psxgpu.output import Packed, Source, Text, once
from psxgpu.packing import packing
from psxgpu.players import player
from psxgpu.players.flat import flattened
from psxgpu.stream import Stream
from psxgpu.errors import counted, title


def arguments(parser: argparse.ArgumentParser) -> None:
    """Adds the arguments of this tool."""
    parser.add_argument('capture', type=Source, metavar='CAPTURE', help='a capture; - is standard input')
    once(parser, 'dump', Packed,
         'the dump, packed if its name ends in .zst, .xz or .gz; standard output if left out', '-')
    parser.add_argument('--game', type=Text, default='UNKNOWN', metavar='ID', help='the name of the game in the dump')
    parser.add_argument('--pal', action='store_true', help='50 frames a second instead of 60')
    parser.add_argument('--flips', action='store_true',
                        help='a VSync after each write of the display start: for recordings without marks')
    parser.add_argument('--begin', type=decimal(0, 1 << 62), default=0, metavar='EVENT',
                        help='the trace begins after this event; those up to it restore the state')
    parser.add_argument('--all', action='store_true', help='keep all control words')
    player.argument(parser)


def run(words: argparse.Namespace) -> None:
    """Writes the dump."""
    name = title(words.capture)
    about = About(words.game, 'PAL' if words.pal else 'NTSC', words.begin, words.flips, words.all)
    with plain(words.capture) as path, flattened(path, words.player) as flat, reading(flat) as source:
        stream = Stream(source, name)
        export = Export(stream, stream.version == 3, about)
        with packing(words.dump, [words.capture]) as target:
            for piece in export:
                target.write(piece)
    if export.left_out:
        print('%s: %s %s left out: reads of the status and control words'
              % (name, counted(export.left_out, 'event'), 'is' if export.left_out == 1 else 'are'),
              file=sys.stderr)
