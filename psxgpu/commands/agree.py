"""Compares two players on random captures, class by class, and prints in how many the dumps are equal.

    psxgpu agree psxgpu_tool other_player
    psxgpu agree psxgpu_tool other_player 10 fills 'lines, sloped'
    psxgpu agree --classes

A player is a shell command that reads a capture of version 1 without Ram and Dma records and writes a dump. The mode
`vram` is added to a command without this word. For captures that differ, the table has the share of differing cells
among those that either player changed. After the table, each class that differs has who decides it. docs/EMULATORS.md has the reason for each class.

Status: 0 all are equal, 1 some differ, 2 an error, also if a player wrote no dump.
"""
import argparse

from psxgpu.command import DIFFERENT, SAME, ToolError, decimal
from psxgpu.fuzz.deciding import DECIDED, of_random
from psxgpu.output import Command, Text
from psxgpu.packets.generated import CLASSES
from psxgpu.players import player
from psxgpu.players.agreement import Score, compare_class
from psxgpu.players.named import player_of
from psxgpu.players.trial_run import try_commands


def arguments(parser: argparse.ArgumentParser) -> None:
    """Adds the arguments of this tool."""
    parser.add_argument('ours', nargs='?', type=Command, metavar='OURS', help='a player')
    parser.add_argument('theirs', nargs='?', type=Command, metavar='THEIRS', help='another player')
    parser.add_argument('captures', nargs='?', type=decimal(1, 1000000), default=100, metavar='CAPTURES',
                        help='the captures of each class (default: 100)')
    parser.add_argument('names', nargs='*', type=Text, metavar='CLASS', help='the classes (default: all)')
    player.seconds_argument(parser)
    parser.add_argument('--classes', action='store_true', help='list the classes')


def run(words: argparse.Namespace) -> int:
    """Prints the table."""
    if words.classes:
        print('\n'.join(CLASSES))
        return SAME
    if not words.theirs:
        raise ToolError('name two players')
    unknown = [name for name in words.names if name not in CLASSES]
    if unknown:
        raise ToolError('there is no class %r: the classes are %s' % (unknown[0], '; '.join(CLASSES)))
    players = [player_of(command, words.seconds) for command in (words.ours, words.theirs)]
    try_commands(players[0], players[1])
    scores = []
    print('| class | captures | equal | cells that differ in the others |')
    print('|---|---|---|---|')
    for name in words.names or CLASSES:
        scores.append(Score(name, words.captures))
        compare_class(scores[-1], players)
        print(scores[-1].line(), flush=True)
    for score in scores:
        if score.equal + score.lost < score.captures:
            print('%s: %s' % (score.name, DECIDED % (of_random(score.name),)))
    lost = sum(score.lost for score in scores)
    if lost:
        raise ToolError('a player wrote no dump for %d of %d captures' % (lost, sum(score.captures for score in scores)))
    return DIFFERENT if any(score.equal < score.captures for score in scores) else SAME
