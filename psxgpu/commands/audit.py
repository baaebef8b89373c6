"""Compares another player with psxgpu_tool, packet by packet, on a recording.

    psxgpu audit mine.capture psxgpu_tool other_player
    psxgpu audit mine.capture psxgpu_tool other_player --first 3000 --last 4000

OURS is this project's player, THEIRS one that knows `play` for captures of version 1 (Gp0, Gp1, Read, Stat records).
Both are shell commands: the mode replaces the word `vram`, or is added at the end.

After each packet that draws, the cells in and around its area are read, and then set to what OURS drew. So both players
have the same video memory before each packet, and a difference does not reach later packets. The table has a line for
each class of packets. The first packet of each class that differs follows, with who decides it. Packets before the first and after the last
event are played but not compared. The capture must be flat (`psxgpu_tool flat` flattens one).

With --reduce, the first packet of each class that differs is reduced as by `psxgpu reduce --event --keep`. THEIRS must
then also know `vram`.

Status: 0 no packet differs; 1 some do; 2 an error, also if there is no packet to compare.
"""
import argparse
import json
from typing import Dict

from psxgpu import jobs, progress
from psxgpu.command import DIFFERENT, SAME, decimal, title
from psxgpu.files import read_capture
from psxgpu.fuzz.deciding import DECIDED, of_class
from psxgpu.output import Command, Source, tree
from psxgpu.players import player
from psxgpu.players.audit import Row, audit
from psxgpu.players.named import player_of
from psxgpu.players.trial_run import OURS, THEIRS, try_words
from psxgpu.reduce.classes import reduce_classes


def arguments(parser: argparse.ArgumentParser) -> None:
    """Adds the arguments of this tool."""
    parser.add_argument('capture', type=Source, metavar='CAPTURE', help='a flat capture; - is standard input')
    parser.add_argument('ours', type=Command, metavar='OURS', help='the reference player: psxgpu_tool')
    parser.add_argument('theirs', type=Command, metavar='THEIRS', help='the player to test')
    parser.add_argument('--first', type=decimal(1, 1 << 62), default=1, metavar='EVENT',
                        help='the first event to compare (default: 1)')
    parser.add_argument('--last', type=decimal(1, 1 << 62), default=1 << 60, metavar='EVENT',
                        help='the last event to compare (default: that of the capture)')
    parser.add_argument('--json', action='store_true', help='print an object with an entry for each class')
    jobs.argument(parser)
    player.seconds_argument(parser)
    parser.add_argument('--reduce', '-o', type=tree('psxgpu audit'), metavar='DIR',
                        help='write the smallest capture for each class that differs, and index.html, a table of them')


def run(words: argparse.Namespace) -> int:
    """Prints the table and the first packet of each class that differs."""
    name, data = title(words.capture), read_capture(words.capture)
    ours, theirs = player_of(words.ours, words.seconds), player_of(words.theirs, words.seconds)
    for one, role in ((ours, OURS), (theirs, THEIRS)):
        try_words(one, role)
    with progress.shown(name, is_quiet=True):
        rows = audit(data, ours, theirs, words.first, words.last, name, words.jobs)
    if words.json:
        print(json.dumps({kind: row.as_object() for kind, row in sorted(rows.items())}, indent=1))
    else:
        print_table(rows)
    if words.reduce:
        reduce_classes(data, name, rows, ours, theirs, words.reduce)
    return DIFFERENT if any(row.differ for row in rows.values()) else SAME


def print_table(rows: Dict[str, Row]) -> None:
    """Prints the table, and the first packet of each class that differs."""
    print('| packets | number | equal | cells looked at | that differ | by more than one step |')
    print('|---|---|---|---|---|---|')
    for kind, row in sorted(rows.items()):
        print('| %s | %d | %d | %d | %d | %d |' % (kind, row.packets, row.equal, row.cells, row.differ, row.far))
    for kind, row in sorted(rows.items()):
        if row.first:
            print('%s: %s' % (kind, row.first))
            print('    ' + DECIDED % (of_class(kind),))
