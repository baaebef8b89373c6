#!/usr/bin/env python3
"""Measures the commands that write text or records, and one that writes almost nothing.

    python3 -m bench.text [--rotations N] [--millions N] [--ours PROGRAM]

Makes a capture of N million GP0 words, small flat triangles, in records of many words, and again with a record for each
word, as `flat` writes them. Each command plays both in turn into a file. The table has the processor time, user and
system, the best of the rotations.
"""
import argparse
import os
import subprocess
import sys
import tempfile

ROOT = os.path.dirname(os.path.dirname(os.path.abspath(__file__)))

from psxgpu.capture import Capture, drawing_area
from bench.run import OURS
from bench.workloads import Numbers, triangle

COMMANDS = (['report'], ['list'], ['flat'], ['cut', '1'], ['slim'])
TRIANGLES = 1000


def capture_of(millions, single):
    """Returns a capture of `millions` million words: long records, or with `single` one record per word."""
    numbers, draw = Numbers(), triangle(8)
    words = [word for k in range(TRIANGLES) for word in draw(k, numbers)]
    capture = Capture().gp0(drawing_area(0, 0, 1023, 511))
    for _ in range(millions * 1000000 // len(words)):
        for piece in ([[word] for word in words] if single else [words]):
            capture.gp0(piece)
    return capture


def seconds(program, path, command, out):
    """Returns the processor time of one run that writes a file."""
    with open(path, 'rb') as capture, open(out, 'wb') as file:
        child = subprocess.Popen([program, *command], stdin=capture, stdout=file)
        _, status, usage = os.wait4(child.pid, 0)
        child.returncode = os.waitstatus_to_exitcode(status)
    if child.returncode:
        sys.exit('%s %s ended with status %d' % (program, command[0], child.returncode))
    return usage.ru_utime + usage.ru_stime


def main():
    parser = argparse.ArgumentParser(description=__doc__, formatter_class=argparse.RawDescriptionHelpFormatter)
    parser.add_argument('--rotations', type=int, default=5)
    parser.add_argument('--millions', type=int, default=6)
    parser.add_argument('--ours', help='a built program; none is built then')
    args = parser.parse_args()
    if not args.ours:
        subprocess.run(['make', '-s', OURS], cwd=ROOT, check=True)
    program = args.ours or os.path.join(ROOT, OURS)
    with tempfile.TemporaryDirectory() as folder:
        print('| records | MB | ' + ' | '.join(command[0] + ', s' for command in COMMANDS) + ' |')
        print('|---' * (2 + len(COMMANDS)) + '|')
        for name, single in (('of many words', False), ('of one word', True)):
            path = os.path.join(folder, 'made')
            capture_of(args.millions, single).save(path)
            best = [float('inf')] * len(COMMANDS)
            for _ in range(args.rotations):
                for k, command in enumerate(COMMANDS):
                    best[k] = min(best[k], seconds(program, path, command, os.path.join(folder, 'out')))
            print('| %s | %.1f | %s |' % (name, os.path.getsize(path) / 1e6, ' | '.join('%.2f' % time for time in best)))


if __name__ == '__main__':
    main()
