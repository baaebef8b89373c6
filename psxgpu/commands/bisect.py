"""Finds the first packet after which two players' dumps of video memory differ.

    psxgpu bisect mine.capture 'psxgpu_tool vram' 'other_player vram'
    psxgpu bisect mine.capture 'psxgpu_tool vram' 'other_player vram' --tolerance 1 \\
        --ignore scaled --ignore sloped

Each command reads a capture on standard input and writes a dump. It receives a flat capture of version 1 (3 for tall
video memory): psxgpu_tool flattens one with DMA, and a Skip becomes a Read. A binary search cuts the capture between
packets. A difference that a later packet removes is usually not found. In every case, the dumps are equal before the
named packet and differ after it.

With --ignore, the players do not receive packets of that class: each is replaced by a load of what psxgpu_tool draws.
Classes are the names polygon, line, rectangle, copy, fill, and gouraud (a polygon of several colours), scaled (a
textured polygon whose texels are not one for each cell), sloped (a line off axes and diagonals), shaded-line, smear (a
copy that overlaps itself to the right), even-flip (X flip with an even U), far (vertex and offset beyond eleven bits).

Status: 0 no difference, 1 one was found, 2 an error.
"""
import argparse
import contextlib
from typing import Optional

from psxgpu import progress
from psxgpu.command import DIFFERENT, SAME, decimal, title
from psxgpu.difference import compared
from psxgpu.errors import counted
from psxgpu.files import plain
from psxgpu.fuzz.deciding import DECIDED, of_packet
from psxgpu.output import Command, Source
from psxgpu.packets.deciders import Decision
from psxgpu.packets.known import CLASSES, NAMES
from psxgpu.players import player
from psxgpu.players.beginning import beginning
from psxgpu.players.bisection import bisect, build, step_text
from psxgpu.players.flat import flattened
from psxgpu.players.named import player_of
from psxgpu.players.steps import Steps
from psxgpu.players.trial_run import try_players
from psxgpu.players.two_players import Players
from psxgpu.stream import GP0


def arguments(parser: argparse.ArgumentParser) -> None:
    """Adds the arguments of this tool."""
    parser.add_argument('capture', type=Source, metavar='CAPTURE',
                        help='a capture or a dump of a GPU; - is standard input')
    parser.add_argument('ours', type=Command, metavar='OURS',
                        help='a shell command: it reads a capture and writes a dump')
    parser.add_argument('theirs', type=Command, metavar='THEIRS', help='another such command')
    parser.add_argument('--tolerance', type=decimal(0, 31), default=0, metavar='N',
                        help='cells whose channels are at most N steps apart count as equal')
    parser.add_argument('--ignore', action='append', choices=sorted(CLASSES) + list(NAMES), default=[], metavar='CLASS',
                        help='a class of packets whose differences are known, some of: '
                             + ', '.join(sorted(CLASSES) + list(NAMES)))
    player.seconds_argument(parser)
    player.argument(parser)


def of_step(steps: Steps, k: int) -> Optional[Decision]:
    """Returns who decides what a step draws."""
    kind, _, packet = steps.record(k)
    return of_packet(packet.tolist(), steps.registers_behind(k - 1)) if kind == GP0 else None


def search(words: argparse.Namespace, path: str, name: str, program: str) -> int:
    """Prints the first packet after which the dumps differ. Returns the status."""
    ours, theirs = player_of(words.ours, words.seconds), player_of(words.theirs, words.seconds)

    def shows(beginning_path: str) -> bool:
        """Whether the dumps of the beginning of the capture differ."""
        with build(beginning_path, name, words.ignore, program) as steps:
            return Players(ours, theirs, words.tolerance, steps, program).differ(steps.count)

    with contextlib.ExitStack() as stack:
        flat = stack.enter_context(flattened(path, program))
        try_players(ours, theirs, flat)
        with progress.shown(name, is_quiet=True):
            part, is_whole = stack.enter_context(beginning(flat, name, shows))
            steps = stack.enter_context(build(part, name, words.ignore, program))
            players = Players(ours, theirs, words.tolerance, steps, program)
            k = bisect(steps.count, players.differ, players.narrow)
        if k is None:
            print('no difference after %s' % counted(steps.lines[steps.count], 'packet'))
            return SAME
        if k == 0:
            print('they differ before the first packet')
            return DIFFERENT
        print('they differ from here on, packet %d of %s%d:'
              % (steps.lines[k], '' if is_whole else 'the first ', steps.lines[steps.count]))
        print('\n'.join(step_text(steps, k, path, program)))
        decided = of_step(steps, k)
        if decided:
            print(DECIDED % (decided,))
        print('\n'.join(compared(*players.dumps(k), words.tolerance).lines()))
    return DIFFERENT


def run(words: argparse.Namespace) -> int:
    """Prints the first packet after which the dumps differ."""
    program = player.find(words.player)
    with plain(words.capture) as path:
        return search(words, path, title(words.capture), program)
