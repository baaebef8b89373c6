"""Finds the smallest capture on which two players still differ.

    psxgpu reduce mine.capture 'psxgpu_tool vram' 'other_player vram' -o small
    psxgpu reduce mine.capture 'psxgpu_tool vram' 'other_player vram' --event 81234 --keep

A player is a shell command that reads a capture on standard input and writes a dump. docs/REDUCE.md has the details.
The first packet after which both differ is found as by `bisect`; with --event it is the packet of that event.
Everything before it is replaced by a state: loads of video memory, and settings. Then everything that is not needed is
removed: loads, settings, words, bits, texels, size.

The tool writes NAME.capture, NAME.log (for from-log), NAME.py (a script that makes it) and NAME.png (ours, theirs, the
difference). If the viewer is built, NAME.html shows the capture in a browser, compared with what THEIRS drew.

With --words it compares the words of reads and statuses: `play` replaces `vram` in both commands. With --crash it
searches the smallest capture for which THEIRS gives no dump. With --ignore, differences of known classes are no fault,
as for `bisect`, and the result has no packet of these classes. With --keep the packet stays shaded, textured, raw or
semi-transparent as it was.

With --without FEATURE, each smaller capture still differs, and does not differ without this feature (dither, say). So
the result cannot be another fault.

Status: 0 no difference, 1 one was found, 2 an error.
"""
from __future__ import annotations

import argparse
import os
import sys
import time

from psxgpu import progress
from psxgpu.command import DIFFERENT, SAME, decimal, parser_of, title
from psxgpu.commands import to_exe
from psxgpu.files import plain
from psxgpu.fuzz.deciding import DECIDED, of_units
from psxgpu.output import Command, Source, stem, write_several
from psxgpu.packets.known import CLASSES, NAMES
from psxgpu.players import player
from psxgpu.players.flat import flattened
from psxgpu.players.named import player_of
from psxgpu.players.trial_run import OURS, THEIRS, try_players, try_words, version_for
from psxgpu.reduce.faults import BreaksDown, DumpsDiffer, Fault, WordsDiffer
from psxgpu.reduce.features import FEATURES
from psxgpu.reduce.job import Job, Wanted
from psxgpu.reduce.report import files_of, report_lines
from psxgpu.viewing.linked import page_of_reduced

ENDINGS = ('.capture', '.log', '.py', '.png', '.exe', '.html')
PROOF = '.log', r'# .*, event \d+ of the flat capture: '     # the first line of NAME.log


def arguments(parser: argparse.ArgumentParser) -> None:
    """Adds the arguments."""
    parser.add_argument('capture', type=Source, metavar='CAPTURE', help='a capture; - is standard input')
    parser.add_argument('ours', type=Command, metavar='OURS', help='a shell command: capture in, dump out')
    parser.add_argument('theirs', type=Command, metavar='THEIRS', help='another such command')
    parser.add_argument('-o', '--output', type=stem(ENDINGS, PROOF), default='reduced', metavar='NAME',
                        help='the beginning of the files\' names (default: %(default)s)')
    parser.add_argument('--event', type=decimal(1, 1 << 62), metavar='N', help='an event of the flat capture')
    parser.add_argument('--keep', action='store_true', help='the packet stays in its class')
    parser.add_argument('--without', action='append', choices=sorted(FEATURES), default=[], metavar='FEATURE',
                        help='a feature without which the players do not differ, some of: ' + ', '.join(sorted(FEATURES)))
    what = parser.add_mutually_exclusive_group()
    what.add_argument('--words', action='store_true', help='compare the words of reads and statuses')
    what.add_argument('--crash', action='store_true', help='THEIRS crashes')
    parser.add_argument('--tolerance', type=decimal(0, 31), default=0, metavar='N',
                        help='cells whose channels are at most N steps apart count as equal')
    parser.add_argument('--ignore', action='append', choices=sorted(CLASSES) + list(NAMES), default=[], metavar='CLASS',
                        help='a class of packets whose differences are known')
    player.seconds_argument(parser)
    parser.add_argument('--jobs', type=decimal(1, 1000), default=len(os.sched_getaffinity(0)), metavar='N',
                        help='players at a time (default: one for each processor)')
    parser.add_argument('--exe', action='store_true', help='also write NAME.exe, a program for the console')
    player.argument(parser)


def fault_of(words: argparse.Namespace) -> Fault:
    """Returns what is looked for."""
    if words.words:
        return WordsDiffer()
    return BreaksDown() if words.crash else DumpsDiffer(words.tolerance)


def write_program(capture: str, name: str) -> None:
    """Writes NAME.exe by `to-exe`."""
    parser = parser_of(to_exe, 'psxgpu to-exe')
    to_exe.run(parser.parsed(['-o', name, '--check', '--', capture]))


def search(words: argparse.Namespace, path: str, name: str) -> int:
    """Searches and writes; returns the status."""
    ours, theirs = player_of(words.ours, words.seconds), player_of(words.theirs, words.seconds)
    if words.words:
        for one, role in ((ours, OURS), (theirs, THEIRS)):
            try_words(one, role, version_for(path))
    else:
        try_players(ours, theirs, path)
    wanted = Wanted(fault_of(words), words.ignore, words.keep, words.event, words.player,
                    words.without)
    begin = time.monotonic()
    with Job(ours, theirs, wanted, words.seconds, words.jobs) as job:
        with progress.shown(name, is_quiet=True) as line, flattened(path, words.player) as flat:
            job.tell = lambda text: setattr(line, 'text', '%s: %s' % (name, text))
            found = job.result(flat, name)
        if found is None:
            print('no difference')
            return SAME
        print('\n'.join(report_lines(found)))
        decided = of_units(found.units) if found.dumps else None
        if decided:
            print(DECIDED % (decided,))
        notes = ['ours: ' + words.ours, 'theirs: ' + words.theirs]
        write_several([*files_of(found, words.output, notes), *page_of_reduced(found, words.output, notes)])
        if words.exe:
            write_program(words.output + '.capture', words.output + '.exe')
        if sys.stderr.isatty():
            print('%.1f s, %d probes' % (time.monotonic() - begin, job.prober.count), file=sys.stderr)
    return DIFFERENT


def run(words: argparse.Namespace) -> int:
    """Runs the command."""
    with plain(words.capture) as path:
        return search(words, path, title(words.capture))
