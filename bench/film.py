#!/usr/bin/env python3
"""Measures the time for a film and for the history of a cell, compared with the dump.

    python3 -m bench.film [--rotations N] [--seconds N] [--ours PROGRAM] [CAPTURE ..]

Without a capture it generates N seconds of the frames of bench/workloads.py, thirty a second, each drawn and then
displayed at 320 by 240. Each command plays the capture in turn. The table has the processor time, the best of the
rotations.
"""
import argparse
import os
import subprocess
import tempfile

ROOT = os.path.dirname(os.path.dirname(os.path.abspath(__file__)))

from psxgpu.capture import Capture, display_start, screen
from bench.run import OURS, seconds
from bench.workloads import TEXTURES, Numbers, frame

COMMANDS = (['vram'], ['frames'], ['sums'], ['pixel', '100', '100'])


def recording(length):
    """Returns a capture of `length` seconds."""
    capture, numbers = Capture(), Numbers()
    capture.gp1(*screen(0, 0, 320, 240)).gp0(TEXTURES)
    for k in range(30 * length):
        capture.gp0([frame(10 * k + part, numbers) for part in range(10)])
        capture.gp1(display_start(0, 0))
    return capture


def main():
    parser = argparse.ArgumentParser(description=__doc__, formatter_class=argparse.RawDescriptionHelpFormatter)
    parser.add_argument('--rotations', type=int, default=5)
    parser.add_argument('--seconds', type=int, default=20)
    parser.add_argument('--ours', help='a built program; none is built then')
    parser.add_argument('captures', nargs='*', metavar='CAPTURE')
    args = parser.parse_args()
    if not args.ours:
        subprocess.run(['make', '-s', OURS], cwd=ROOT, check=True)
    program = args.ours or os.path.join(ROOT, OURS)
    with tempfile.TemporaryDirectory() as folder:
        if not args.captures:
            args.captures = [os.path.join(folder, 'made')]
            recording(args.seconds).save(args.captures[0])
        print('| capture | MB | ' + ' | '.join(command[0] + ', s' for command in COMMANDS) + ' |')
        print('|---' * (2 + len(COMMANDS)) + '|')
        for path in args.captures:
            best = [float('inf')] * len(COMMANDS)
            for _ in range(args.rotations):
                for k, command in enumerate(COMMANDS):
                    best[k] = min(best[k], seconds(program, path, command))
            print('| %s | %.1f | %s |' % (os.path.basename(path), os.path.getsize(path) / 1e6,
                                          ' | '.join('%.2f' % time for time in best)))


if __name__ == '__main__':
    main()
