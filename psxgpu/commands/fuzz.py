"""Searches for every way in which another player differs, and keeps one small capture of each.

    psxgpu fuzz other_player -o found --minutes 600
    psxgpu fuzz other_player -o found --from mine.capture
    psxgpu fuzz --join found-1 found-2 -o found
    psxgpu fuzz --table found

PLAYER is a shell command that reads a capture of version 1 without Ram and Dma records. The mode replaces the word
`vram`, or is added at the end. A player that knows `play` is asked about 48 experiments in one run; one that knows
`vram` alone is slower. Experiments are random packets, settings and numbers at boundaries, and changes of recordings
(--from, flat captures). What differs is compared with the kinds that are known. If none explains it, it is reduced, and
is a new kind. docs/FUZZING.md has the details.

FOLDER keeps each kind as soon as it is found; a later run with the same folder continues. index.html and kinds.txt have
the kinds: what differs, who decides, which conformance test shows it. Several machines use different seeds and folders;
--join puts these together.

Status: 0 nothing differs, 1 something does, 2 an error.
"""
from __future__ import annotations

import argparse
import contextlib
import json
import multiprocessing
import os
import signal
import time
from typing import Iterator, List

from psxgpu.command import DIFFERENT, SAME, ToolError, decimal, reading
from psxgpu.fuzz.asking import Asking
from psxgpu.fuzz.causes import causes
from psxgpu.fuzz.cover import cover
from psxgpu.fuzz.hunt import Hunt, ground_of
from psxgpu.fuzz.kinds import KINDS, Store, as_json, read_samples
from psxgpu.fuzz.page import Report
from psxgpu.fuzz.reading import Reading
from psxgpu.output import Command, Content, Source, tree, write_several
from psxgpu.output.folders import is_made_by, refuse_foreign
from psxgpu.players import player
from psxgpu.players.bench import Bench, DumpBench
from psxgpu.players.named import Player, player_of
from psxgpu.players.trial_run import OURS, THEIRS, try_commands, try_words
from psxgpu.stopping import Stopped

MAKER = 'psxgpu fuzz'
READS = 6               # batches for each one of reads
SEEDS = 1000            # of the workers of one seed
COUNTS = 'worker-'
NAMED, OF_WORKERS = ('index.html', 'kinds.txt'), (COUNTS, 'samples-')


def arguments(parser: argparse.ArgumentParser) -> None:
    """Adds the arguments."""
    parser.add_argument('theirs', nargs='?', type=Command, metavar='PLAYER', help='the player to test')
    parser.add_argument('-o', '--output', type=tree(MAKER), metavar='FOLDER', help='where the kinds are kept')
    parser.add_argument('--ours', type=Command, default='psxgpu_tool', metavar='PLAYER',
                        help='the reference (default: %(default)s)')
    parser.add_argument('--minutes', type=decimal(1, 100000), default=10, metavar='M', help='default: %(default)s')
    parser.add_argument('--captures', type=decimal(1, 1 << 40), metavar='N', help='end after N captures of each worker')
    parser.add_argument('--seed', type=decimal(0, 1 << 40), default=1, metavar='N', help='default: %(default)s')
    parser.add_argument('--jobs', type=decimal(1, 1000), default=len(os.sched_getaffinity(0)), metavar='J',
                        help='workers (default: one for each processor)')
    parser.add_argument('--from', dest='recordings', nargs='+', type=Source, default=[], metavar='RECORDING',
                        help='flat captures whose packets are changed')
    parser.add_argument('--join', nargs='+', type=Source, metavar='FOLDER', help='folders to put together')
    parser.add_argument('--table', type=Source, metavar='FOLDER', help='print the kinds of a folder')
    parser.add_argument('--no-suite', action='store_true', help='do not run the conformance suite at the end')
    player.seconds_argument(parser, 10)


def knows_play(one: Player, role: str) -> bool:
    """Returns whether a player knows `play`."""
    try:
        try_words(one, role)
    except ToolError:
        return False
    return True


def bench_of(words: argparse.Namespace, seed: int) -> Bench:
    """Returns the bench of a worker."""
    ours, theirs = player_of(words.ours, words.seconds), player_of(words.theirs, words.seconds)
    kind = Bench if knows_play(theirs, THEIRS) and knows_play(ours, OURS) else DumpBench
    return kind(ours, theirs, ground_of(seed), words.seconds)


def work(words: argparse.Namespace, seed: int) -> None:
    """Searches until the time is over, or until it is stopped: by the run itself, since Ctrl-C reaches both."""
    signal.signal(signal.SIGINT, signal.SIG_IGN)
    with contextlib.suppress(Stopped):
        search(words, seed)


def search(words: argparse.Namespace, seed: int) -> None:
    """Searches until the time is over."""
    end = time.monotonic() + 60 * words.minutes
    hunt = Hunt(bench_of(words, seed), Store(words.output, MAKER), seed)
    reads = Reading(hunt) if not isinstance(hunt.bench, DumpBench) else None
    for path in words.recordings:
        with reading(path) as file:
            hunt.maker.record(file, path)
    while time.monotonic() < end and hunt.counts['captures'] < (words.captures or 1 << 60):
        hunt.step()
        if reads and hunt.counts['batches'] % READS == 0:
            reads.step()
        hunt.save()
    hunt.save(is_last=True)


@contextlib.contextmanager
def working(words: argparse.Namespace, seeds: List[int]) -> Iterator[None]:
    """Runs the workers, which end at the end of the block."""
    workers = [multiprocessing.Process(target=work, args=(words, seed), daemon=True) for seed in seeds]
    for worker in workers:
        worker.start()
    try:
        for worker in workers:
            worker.join()
        if any(worker.exitcode for worker in workers):
            failed = sum(bool(worker.exitcode) for worker in workers)
            raise ToolError('%d of %d workers failed' % (failed, len(workers)))
        yield
    finally:
        for worker in workers:
            worker.terminate()


def report_of(path: str) -> Report:
    """Returns the report of a folder."""
    store = Store(path, MAKER)
    return Report(store, causes(store.kinds, read_samples(store)))


def join(folders: List[str], store: Store) -> None:
    """Copies the kinds and counts of folders into one."""
    for number, path in enumerate(folders, 1):
        if not is_made_by(path, MAKER):
            raise ToolError('%s: not a folder of %s' % (path, MAKER))
        names = [name for name in os.listdir(path) if name.startswith(OF_WORKERS)]
        found = [(name, name.replace('-', '-%d-' % number, 1)) for name in names]
        found += [(os.path.join(KINDS, name), os.path.join(KINDS, '%d-%s' % (number, name)))
                  for name in os.listdir(os.path.join(path, KINDS))]
        write_several([Content(store.path(new), contents(os.path.join(path, old), number), is_text=True)
                       for old, new in found])
    store.refresh()


def contents(path: str, number: int) -> bytes:
    """Returns the bytes of a file. In a kind and in the counts of a worker, names of kinds begin with the number of the
    folder."""
    with open(path, 'rb') as file:
        data = file.read()
    name, ending = os.path.splitext(os.path.basename(path))
    if ending == '.json' and os.path.basename(os.path.dirname(path)) == KINDS:
        kind = json.loads(data)
        return as_json({**kind, 'same': ['%d-%s' % (number, key) for key in kind.get('same', ())]})
    if not name.startswith(COUNTS):
        return data
    worker = json.loads(data)
    return as_json({**worker, 'seen': {'%d-%s' % (number, key): count for key, count in worker['seen'].items()}})


def opened(words: argparse.Namespace, seeds: List[int]) -> Store:
    """Returns the store of the folder, which is new or was written by this tool."""
    refuse_foreign(words.output, MAKER)
    store = Store(words.output, MAKER)
    store.folder.mark([*NAMED, *('%s%d.json' % (begin, seed) for begin in OF_WORKERS for seed in seeds)])
    return store


def finish(words: argparse.Namespace) -> int:
    """Writes the page and prints the kinds. Returns the status."""
    if words.theirs:
        bench = bench_of(words, SEEDS * words.seed)
        if not isinstance(bench, DumpBench):
            Asking(bench, Store(words.output, MAKER)).ask()
    report = report_of(words.output)
    if words.theirs and not words.no_suite:
        theirs = player_of(words.theirs, words.seconds)
        cover({cause.key: cause.kind for cause in report.causes}, theirs, words.seconds)
        for cause in report.causes:
            report.store.put(cause.key, cause.kind)
    report.write(words.theirs or ' '.join(words.join))
    print('\n'.join(report.lines()))
    return DIFFERENT if report.causes else SAME


def run(words: argparse.Namespace) -> int:
    """Runs the command."""
    if words.table:
        if not is_made_by(words.table, MAKER):
            raise ToolError('%s: not a folder of %s' % (words.table, MAKER))
        print('\n'.join(report_of(words.table).lines()))
        return SAME
    if not words.output or not (words.theirs or words.join):
        raise ToolError('name a player and a folder (-o)')
    if words.join:
        join(words.join, opened(words, []))
        return finish(words)
    try_commands(player_of(words.ours, words.seconds), player_of(words.theirs, words.seconds))
    seeds = [SEEDS * words.seed + k for k in range(words.jobs)]
    opened(words, seeds)
    with working(words, seeds):
        return finish(words)
