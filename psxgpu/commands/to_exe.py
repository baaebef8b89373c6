"""Converts a capture to a test program: a PS-X EXE for any emulator or a PlayStation.

    psxgpu to-exe mine.capture -o mine.exe              plays the capture and shows the picture at its end
    psxgpu to-exe mine.capture -o mine.exe --check      also shows what differs, on the screen and the TTY

No compiler is needed. docs/CONSOLE.md explains how to run the program. Status: 0 written, with a line on standard error
for each point where a console may differ; 2 an error.
"""
import argparse
import sys

from psxgpu import console
from psxgpu.command import SAME, decimal, title, writing
from psxgpu.console import Choices, Frames, make
from psxgpu.console.plan import BLANKS
from psxgpu.files import plain
from psxgpu.output import Source, Target
from psxgpu.players import player


def arguments(parser: argparse.ArgumentParser) -> None:
    """Adds the arguments of this tool."""
    parser.add_argument('capture', type=Source, metavar='CAPTURE',
                        help='a capture of version 1 or 2, or a dump of a GPU; - is standard input')
    parser.add_argument('-o', '--output', dest='out', type=Target, metavar='EXE', required=True,
                        help='the program; - is standard output')
    parser.add_argument('--check', action='store_true', help='the program finally shows what differs')
    parser.add_argument('--blanks', choices=tuple(BLANKS), default='marks',
                        help='wait for a vertical blank at each mark (default), at each flip, or at none')
    parser.add_argument('--from', dest='first', type=decimal(0, 1 << 30), default=0, metavar='FRAME',
                        help='begin after FRAME frames, with the state before; frames are marks, or else flips')
    parser.add_argument('--frames', type=decimal(1, 1 << 30), metavar='N', help='N frames; all if left out')
    parser.add_argument('--pack', action='store_true', help='pack the program, even if it fits without')
    player.argument(parser)


def run(words: argparse.Namespace) -> int:
    """Writes the program."""
    name = title(words.capture)
    with plain(words.capture) as path:
        choices = Choices(words.check, words.blanks, words.pack, Frames(words.first, words.frames))
        program = make(console.Source(player.find(words.player), path, name), choices)
    with writing(words.out, [words.capture]) as file:
        file.write(program.executable)
    for line in program.warnings:
        print('%s: %s' % (name, line), file=sys.stderr)
    return SAME
