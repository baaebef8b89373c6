#!/usr/bin/env python3
"""Counts the instructions of the program for Linux on x86-64 and on arm64, by qemu.

    python3 -m bench.instructions [--scale F] [--only WORD]

Prints a table: for each workload of bench/workloads.py the instructions of a piece of work, without those of a capture
that has only what is before the work, and the ratio. Both programs have to be built: `make run`, `make ARCH=aarch64
run`. Needs cc, qemu-user (its qemu-x86_64 and qemu-aarch64 load plugins) and the C library of the cross compiler.
"""
import argparse
import os
import re
import subprocess
import sys
import tempfile
from typing import List

ROOT = os.path.dirname(os.path.dirname(os.path.abspath(__file__)))

from bench.run import OURS, prepare
from bench.workloads import WORKLOADS

PROGRAMS = [(['qemu-x86_64', '-cpu', 'max'], OURS),
            (['qemu-aarch64', '-L', '/usr/aarch64-linux-gnu'], 'out/aarch64/psxgpu_tool')]


def built(folder: str) -> str:
    """Builds the plugin. Returns its path."""
    path = os.path.join(folder, 'count.so')
    source = os.path.join(ROOT, 'bench', 'count.c')
    subprocess.run(['cc', '-std=c99', '-O2', '-shared', '-fPIC', '-o', path, source], check=True)
    return path


def instructions(start: List[str], plugin: str, program: str, path: str) -> int:
    """Returns how many instructions `vram` of a capture takes."""
    words = [*start, '-plugin', plugin, os.path.join(ROOT, program), 'vram']
    with open(path, 'rb') as capture:
        done = subprocess.run(words, stdin=capture, stdout=subprocess.DEVNULL, stderr=subprocess.PIPE, text=True)
    found = re.search(r'(?m)^instructions (\d+)$', done.stderr)
    if done.returncode or not found:
        sys.exit('%s: status %d: %s' % (program, done.returncode, done.stderr.strip()))
    return int(found[1])


def main() -> None:
    """Prints the table."""
    parser = argparse.ArgumentParser(description=__doc__, formatter_class=argparse.RawDescriptionHelpFormatter)
    parser.add_argument('--scale', type=float, default=0.01, help='how much of each capture is played')
    parser.add_argument('--only', default='', metavar='WORD', help='the workloads whose names have the word')
    words = parser.parse_args()
    print('| workload | x86-64-v2 | arm64 | arm64 to x86-64-v2 |\n|---|---|---|---|')
    with tempfile.TemporaryDirectory() as folder:
        plugin = built(folder)
        chosen = [it for it in WORKLOADS if words.only in it.name]
        for workload, path, _ in prepare(folder, chosen, words.scale)[1:]:
            pieces = max(1, int(workload.count * words.scale))
            each = [(instructions(start, plugin, program, path)
                     - instructions(start, plugin, program, path + '.start')) / pieces for start, program in PROGRAMS]
            counts = ['{:,.0f}'.format(it) for it in each]
            print('| %s | %s | %.2f |' % (workload.name, ' | '.join(counts), each[1] / each[0]), flush=True)


if __name__ == '__main__':
    main()
