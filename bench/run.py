#!/usr/bin/env python3
"""Measures players on the same captures.

    python3 -m bench.run [--rotations N] [--scale F] [--only WORD] [--library] [--browser] [NAME=PROGRAM ..]

Builds the program of this repository, makes the captures of bench/workloads.py, plays each as `PROGRAM vram < capture`
with every player in turn, and prints a table: the speed of each, and the ratio of ours to the fastest of the others. It
measures the processor time of the child, the best of the rotations, minus the time of a capture with only the
preparation (the start of the program, the textures, the dump). --scale makes the captures longer or shorter. --only
selects the workloads whose names contain the word. --library adds columns for the library, with the words of a record
in one call and in a call each. --browser adds a second row for each workload: the module in Chromium, without the time
for copying the words into its memory.
"""
import argparse
import os
import shlex
import subprocess
import sys
import tempfile

ROOT = os.path.dirname(os.path.dirname(os.path.abspath(__file__)))

from bench.bindings import browser_seconds, library_players
from psxgpu.capture import Capture
from bench.workloads import UNITS, WORKLOADS

OURS = 'crates/psxgpu_tool/out/psxgpu_tool'


def seconds(program, path, command=('vram',)):
    """The processor time of one run, user and system."""
    with open(path, 'rb') as capture, open(os.devnull, 'wb') as nowhere:
        child = subprocess.Popen([*shlex.split(program), *command], stdin=capture, stdout=nowhere)
        _, status, usage = os.wait4(child.pid, 0)
        child.returncode = os.waitstatus_to_exitcode(status)
    if child.returncode:
        sys.exit('%s ended with status %d on %s' % (program, child.returncode, path))
    return usage.ru_utime + usage.ru_stime


def megabytes(program, path):
    """The most memory that a run held until its dump begins, as Linux tells it."""
    with open(path, 'rb') as capture:
        child = subprocess.Popen([*shlex.split(program), 'vram'], stdin=capture, stdout=subprocess.PIPE)
    # The dump is longer than a pipe holds, so the child waits here.
    child.stdout.read(1)
    try:
        with open('/proc/%d/status' % child.pid) as status:
            held = [int(line.split()[1]) for line in status if line.startswith('VmHWM')]
    except OSError:
        held = []
    child.stdout.read()
    child.wait()
    return held[0] / 1024 if held else float('nan')


def prepare(folder, workloads, scale):
    """Writes the captures. Returns (workload, path, what it moves) for each, the empty capture first."""
    jobs = [(None, os.path.join(folder, 'empty'), 0)]
    Capture().save(jobs[0][1])
    for k, workload in enumerate(workloads):
        count = max(1, int(workload.count * scale))
        path = os.path.join(folder, str(k))
        # Only the pieces of work are measured, so the start is in a capture of its own.
        Capture().gp0(workload.words(count)).save(path)
        Capture().gp0(workload.start).save(path + '.start')
        jobs.append((workload, path, count * workload.size))
    return jobs


def measure(players, jobs, rotations):
    """best[player][k]: seconds of job k without its start, of job 0 as it is."""
    best = [[float('inf')] * len(jobs) for _ in players]
    starts = [[float('inf')] * len(jobs) for _ in players]
    for rotation in range(rotations):
        for k, (workload, path, _) in enumerate(jobs):
            for p, (_, program) in enumerate(players):
                best[p][k] = min(best[p][k], seconds(program, path))
                if workload:
                    starts[p][k] = min(starts[p][k], seconds(program, path + '.start'))
        print('rotation %d of %d' % (rotation + 1, rotations), file=sys.stderr)
    for p in range(len(players)):
        for k in range(1, len(jobs)):
            best[p][k] = max(best[p][k] - starts[p][k], 1e-6)
    return best


def speed_text(workload, work, seconds):
    speed = work / seconds / UNITS[workload.unit]
    return '%.*f' % (0 if speed >= 100 else 1, speed)


def table(players, jobs, best, memory, own=1, browser=()):
    """The first `own` players are ours; `browser` has the module's seconds for each job but the first."""
    names = [name for name, _ in players]
    rivals = len(names) > own
    rows = [['workload', 'unit'] + names + ['ours to best'] * rivals]
    for k, (workload, _, work) in enumerate(jobs):
        if workload:
            row = [workload.name, workload.unit] + [speed_text(workload, work, times[k]) for times in best]
            rows.append(row + (['%.2f' % (min(times[k] for times in best[own:]) / best[0][k])] if rivals else []))
            if browser:
                speed = speed_text(workload, work, browser[k - 1])
                rows.append([workload.name + ', in Chromium', workload.unit, speed] + [''] * (len(row) - 3 + rivals))
    rows.append(['empty capture', 'ms'] + ['%.1f' % (1e3 * times[0]) for times in best] + [''] * rivals)
    rows.append(['memory', 'MB'] + ['%.1f' % held for held in memory] + [''] * rivals)
    widths = [max(len(row[k]) for row in rows) for k in range(len(rows[0]))]
    rows.insert(1, ['-' * width for width in widths])
    for row in rows:
        cells = [cell.ljust(width) if k < 2 else cell.rjust(width) for k, (cell, width) in enumerate(zip(row, widths))]
        print('| ' + ' | '.join(cells) + ' |')


def main():
    parser = argparse.ArgumentParser(description=__doc__, formatter_class=argparse.RawDescriptionHelpFormatter)
    parser.add_argument('--rotations', type=int, default=5)
    parser.add_argument('--scale', type=float, default=1)
    parser.add_argument('--only', default='')
    parser.add_argument('--ours', help='a built program; none is built then')
    parser.add_argument('--library', action='store_true')
    parser.add_argument('--browser', action='store_true')
    parser.add_argument('players', nargs='*', metavar='NAME=PROGRAM')
    args = parser.parse_args()
    if not args.ours:
        subprocess.run(['make', '-s', OURS], cwd=ROOT, check=True)
    players = [('ours', args.ours or os.path.join(ROOT, OURS))]
    workloads = [workload for workload in WORKLOADS if args.only in workload.name]
    with tempfile.TemporaryDirectory() as folder:
        players += library_players(folder) if args.library else []
        own = len(players)
        players += [tuple(player.split('=', 1)) for player in args.players]
        jobs = prepare(folder, workloads, args.scale)
        best = measure(players, jobs, args.rotations)
        memory = [megabytes(program, jobs[-1][1]) for _, program in players]
        browser = browser_seconds(workloads, args.scale, args.rotations) if args.browser else ()
        table(players, jobs, best, memory, own, browser)


if __name__ == '__main__':
    main()
