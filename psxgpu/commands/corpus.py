"""Stores what a player writes for each capture of a folder, and checks it later.

    psxgpu corpus record captures --golden captures.sums
    psxgpu corpus check captures --golden captures.sums --player ./new --reference ./old
    psxgpu corpus split long.capture --parts 8 --into parts

`record` plays all captures, snapshots and GPU dumps of the folders, packed or not, on all processors, and writes a file
of sums. The player is a command to which `sums`, `vram` or `play` is added, with the capture on standard input. Modes
that it does not know are left out. `check` plays the captures again and reports what differs, on standard output and as
report.txt, junit.xml and report.html in the folder of the report. With a reference, a player that gives the recorded
results, it finds the first packet and draws the difference. `join` makes one file of sums of several, for example if
each machine played a part. `split` cuts a recording after some of its frames into parts that can be played in parallel.
`glue` joins the output for the parts to the output for the whole. docs/CORPUS.md shows all of it.

The order of the parts is that of their names, which begin with the numbers that `split` gives. `glue` refuses another
order. If no name begins with a number, it takes the order in which the files are named: a wrong one is refused for
`list` and `sums`, whose lines have events, and cannot be seen for `play` and `frames`.

A run that was interrupted continues where it was.

Status: 0 the same, or done; 1 something differs; 2 an error, also if the player plays no capture.
"""
import argparse
import os
import shlex
import sys
from typing import Callable, Dict, List, Tuple

from psxgpu.command import DIFFERENT, SAME, ToolError, decimal
from psxgpu.corpus import report
from psxgpu.corpus.captures import NAMES, REPORT, Capture, captures_of
from psxgpu.corpus.findings import Finding, compare_sums
from psxgpu.corpus.glue import glue
from psxgpu.corpus.journal import play_into
from psxgpu.corpus.linked import link_page
from psxgpu.corpus.parts import split
from psxgpu.corpus.places import Places
from psxgpu.corpus.play import Player
from psxgpu.corpus.reduced import reduce_finding
from psxgpu.corpus.scan import FLIP, MARK
from psxgpu.corpus.sums import Sums, as_bytes, read_sums, write_text
from psxgpu.files import plain
from psxgpu.output import check as check_roles
from psxgpu.output import Command, Folder, Role, Source, Target, Text, folder, tree, writing
from psxgpu.players.player import find_program

SPLIT = 'psxgpu corpus split'
USUAL = ('frames', 'vram', 'words')
# The arguments that each action needs beside its places.
WANTED = {'record': ('golden',), 'check': ('golden',), 'join': ('golden',), 'split': ('parts', 'into'), 'glue': ()}


def arguments(parser: argparse.ArgumentParser) -> None:
    """Adds the arguments of this tool."""
    parser.add_argument('action', choices=list(WANTED), metavar='ACTION', help=', '.join(WANTED))
    parser.add_argument('places', nargs='+', type=Source, metavar='PLACE',
                        help='record, check: folders, or files, which are named as they are written here; join: files '
                             'of sums; split: a capture; glue: play, list, frames or sums, and what it wrote for each')
    parser.add_argument('--golden', type=Target, metavar='FILE', help='record, check, join: the file of sums')
    parser.add_argument('--player', type=Command, metavar='COMMAND',
                        help='the player (default: psxgpu_tool of $PLAYER, of the path, or of the checkout)')
    parser.add_argument('--limit', type=decimal(1, 86400), default=60, metavar='SECONDS',
                        help='for one run of the player; one that takes longer hangs (default: %(default)s)')
    parser.add_argument('--jobs', type=decimal(1, 1000), default=len(os.sched_getaffinity(0)), metavar='N',
                        help='players at a time (default: one for each processor)')
    parser.add_argument('--gives', type=Text, default=','.join(USUAL), metavar='LIST',
                        help='the results to store: some of %(default)s')
    parser.add_argument('--marks', action='store_true',
                        help='record, split: frames end at marks (GP1 3Fh) and not at new display starts')
    parser.add_argument('--names', action='append', type=Text, metavar='PATTERN',
                        help='record, check: names of captures (default: %s)' % ' '.join(NAMES))
    parser.add_argument('--reference', type=Command, metavar='COMMAND',
                        help='check: a player that gives the recorded results')
    parser.add_argument('--reduce', action='store_true',
                        help='check, with --reference: write the smallest capture for each that differs')
    parser.add_argument('--report', type=tree(REPORT), metavar='FOLDER',
                        help='check: the folder of the report (default: corpus-report)')
    parser.add_argument('--played', type=Source, metavar='FILE',
                        help='check: sums played elsewhere; the rest is played here')
    parser.add_argument('--pictures', type=decimal(0, 100000), default=50, metavar='N',
                        help='check: the most pictures in the report (default: %(default)s)')
    parser.add_argument('--parts', type=decimal(2, 1000), metavar='N', help='split: the number of parts')
    parser.add_argument('-o', '--output', type=Text, metavar='PATH',
                        help='the same as --golden for record and join, --report for check, --into for split; glue: '
                             'the file to write (default: standard output)')
    parser.add_argument('--into', type=tree(SPLIT), metavar='FOLDER', help='split: the folder for the parts')


def player_of(words: argparse.Namespace, marks: bool = False) -> Player:
    """Returns the player that the arguments name."""
    gives = [it for it in words.gives.split(',') if it]
    if not gives or not set(gives) <= set(USUAL):
        raise ToolError('--gives %s: name some of %s' % (words.gives, ','.join(USUAL)))
    if marks and 'frames' in gives:
        gives[gives.index('frames')] = 'marks'
    return Player(words.player or shlex.quote(find_program()), words.limit, gives)


def captures(words: argparse.Namespace) -> List[Capture]:
    """Returns the captures that the arguments name."""
    return captures_of(words.places, words.names or NAMES)


def record(words: argparse.Namespace) -> int:
    """Writes the file of sums. Returns the status."""
    found = captures(words)
    check_roles([words.golden], [it.path for it in found])
    player = player_of(words, words.marks)
    player.ask_first()
    sums = play_into(words.golden, player, found, words.jobs)
    ends = [row.end.split()[0] for row in sums.rows.values()]
    kinds = ['%d %s' % (ends.count(kind), kind) for kind in sorted(set(ends))]
    print('%s: %s' % (report.counted(len(ends)), ', '.join(kinds)))
    return DIFFERENT if {'hangs', 'crashes', 'fails'} & set(ends) else SAME


def check(words: argparse.Namespace) -> int:
    """Plays the captures again and writes the report. Returns the status."""
    want, found = read_sums(words.golden), captures(words)
    report_folder = words.report or tree(REPORT)('corpus-report')
    check_roles([words.golden, report_folder], [it.path for it in found])
    player = player_of(words, 'marks' in want.gives)
    player.ask_first()
    with folder(report_folder) as out:
        journal = out.keep('played.sums', 'played.sums.part')
        got = play_into(journal, player, found, words.jobs, words.played)
        findings = compare_sums(want, got)
        look_at(findings, {it.name: it.path for it in found}, player, words, out)
        text = report.text(findings)
        for name, data in (('report.txt', text), ('junit.xml', report.junit(findings)),
                           ('report.html', report.page(findings, want.player, got.player))):
            out.put(name, as_bytes(data))
    sys.stdout.write(text)
    return SAME if all(it.kind == 'same' for it in findings) else DIFFERENT


def look_at(findings: List[Finding], paths: Dict[str, str], player: Player, words: argparse.Namespace,
            out: Folder) -> None:
    """Adds to the findings that differ what can be found of them: the first packet, pictures, a page of the viewer, the
    smallest capture."""
    reference = Player(words.reference, words.limit) if words.reference else None
    if reference:
        reference.ask_first()
    places = Places(player, reference)
    for finding in [it for it in findings if it.kind == 'different' and it.name in paths][:words.pictures]:
        with plain(paths[finding.name], finding.name) as path:
            places.look(finding, path)
            link_page(finding, path, out)
            if words.reduce and reference:
                reduce_finding(finding, path, player, reference, out)


def join(words: argparse.Namespace) -> int:
    """Writes one file of sums of several. Returns the status."""
    whole: Sums = read_sums(words.places[0])
    for path in words.places[1:]:
        sums = read_sums(path)
        if (sums.player, sums.gives) != (whole.player, whole.gives):
            raise ToolError('%s: played by %s, and %s by %s' % (path, sums.player, words.places[0], whole.player))
        for name, row in sums.rows.items():
            if whole.rows.setdefault(name, row).block() != row.block():
                raise ToolError('%s: a second capture of the name %s, with other sums' % (path, name))
    write_text(words.golden, whole.text())
    print(report.counted(len(whole.rows)))
    return SAME


OUTPUTS: Dict[str, Tuple[str, Callable[[str], Role]]] = {
    'record': ('golden', Target), 'join': ('golden', Target), 'check': ('report', tree(REPORT)),
    'split': ('into', tree(SPLIT)), 'glue': ('output', Target)}


def complete(words: argparse.Namespace) -> None:
    """Lets -o name the output of the action. Raises ToolError if it is named twice, or cannot have this name."""
    name, kind = OUTPUTS[words.action]
    given, words.output = words.output, None
    if given is None:
        return
    if getattr(words, name) is not None:
        raise ToolError('two outputs are named: %s and %s' % (getattr(words, name), given))
    try:
        setattr(words, name, kind(given))
    except argparse.ArgumentTypeError as error:
        raise ToolError('argument -o/--output: %s' % error) from error


def run(words: argparse.Namespace) -> int:
    """Does the action."""
    missing = ['--' + name for name in WANTED[words.action] if getattr(words, name) is None]
    if missing:
        raise ToolError('%s needs %s' % (words.action, ' and '.join(missing)))
    if words.reduce and not words.reference:
        raise ToolError('--reduce needs --reference, a player that writes what was recorded')
    if words.action == 'split':
        if len(words.places) > 1:
            raise ToolError('split takes one capture')
        split(words.places[0], words.parts, words.into, player_of(words), MARK if words.marks else FLIP)
    elif words.action == 'glue':
        with writing(words.output or '-', words.places[1:], is_text=words.places[0] != 'frames') as out:
            glue(words.places[0], words.places[1:], out)
    else:
        actions = {'record': record, 'check': check, 'join': join}
        return actions[words.action](words)
    return SAME
