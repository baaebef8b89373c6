"""Draws how often each cell is covered in a frame, and prints the cost of each frame.

    psxgpu heat mine.capture heat.png
    psxgpu heat mine.capture heat.png --frame 12 --flips

Frames end at the marks that recorders write (GP1(3Fh)), with --flips at each write of the display start. What follows
the last end is a frame too if it has a packet. Without --frame the picture shows the frame with the most covered cells.
A polygon, line or rectangle covers its cells in the drawing area. A fill, copy or load covers all its cells. A cell
counts even if the mask test or a texel of 0000h kept its value: the picture shows the work, not the result. The
colours: black never, blue once, then green, yellow, red, and white from 16 on.

Each frame gives a line of numbers: the frame, its packets, the cells covered (each as often as it is), the cells
covered at least once, the mean, and the greatest.

Status: 0 written, 2 an error.
"""
from __future__ import annotations

import argparse

from psxgpu import jobs
from psxgpu.command import ToolError, decimal, title
from psxgpu.errors import counted
from psxgpu.heat.picture import picture
from psxgpu.heat.shown import shown_of
from psxgpu.image import write_image
from psxgpu.files import plain
from psxgpu.output import Picture, Source, once
from psxgpu.players import player
from psxgpu.players.flat import flattened
from psxgpu.players.listed import Walk

MARK, FLIP = 0x3F, 0x05     # opcodes of control words


def arguments(parser: argparse.ArgumentParser) -> None:
    """Adds the arguments."""
    parser.add_argument('capture', type=Source, metavar='CAPTURE', help='a capture; - is standard input')
    once(parser, 'picture', Picture, 'the PNG or PPM to write')
    parser.add_argument('--frame', type=decimal(1, 1 << 30), metavar='N', help='the number of a frame, from 1')
    parser.add_argument('--flips', action='store_true', help='frames end at each write of the display start')
    jobs.argument(parser)
    player.argument(parser)


def run(words: argparse.Namespace) -> None:
    """Runs the command."""
    program, name = player.find(words.player), title(words.capture)
    with plain(words.capture) as path, flattened(path, program) as flat:
        shown = shown_of(Walk(flat, name, program), FLIP if words.flips else MARK, words.frame, words.jobs)
    if words.frame and words.frame > len(shown.lines):
        raise ToolError('%s: there is no frame %d: it has %s' % (
            name, words.frame, counted(len(shown.lines), 'frame')))
    print('\n'.join(['frame packets total covered mean most', *shown.lines]))
    number, counts = shown.number, shown.counts
    if words.frame and (counts is None or number != words.frame):
        raise ToolError('%s: frame %d covers no cell' % (name, words.frame))
    if counts is None:
        return
    print('frame %d, cells %d %d %d %d; by how often: %s' % (
        number, *counts.area, ', '.join('%d: %d' % pair for pair in sorted(counts.often.items()) if pair[0])))
    if words.picture:
        write_image(words.picture, picture(counts))
