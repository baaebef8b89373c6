#!/usr/bin/env python3
"""Plays captures with known answers on a slow player: all of them, or each Nth.

    python3 .ci/harness/check_vectors.py [--again] VECTORS [EVERY [FIRST]] -- WORD ..

VECTORS is the folder of the vectors: GROUP/NN.cap (or .cap.gz), the bytes that a command writes in NN.COMMAND.out.gz,
and in NN.COMMAND.end the status and what is on standard error. COMMAND `cut_7` is `cut 7`. WORD .. starts the player.
Each EVERYth answer is tried, from the one of number FIRST on. --again repeats a run that differs once, prints its line
and counts it: for an emulator that may lose a run. The last line is `N of M tried: S same, D differ`. Status: 0 all are
the same, 1 some differ.
"""
import glob
import gzip
import os
import subprocess
import sys
from typing import List

SECONDS = 300
SHOWN = 10


def read(path: str) -> bytes:
    """Returns a file's bytes; the file may be packed."""
    is_packed = not os.path.exists(path)
    with (gzip.open(path + '.gz') if is_packed else open(path, 'rb')) as file:
        return file.read()


def difference(end: str, player: List[str]) -> str:
    """Returns how a player's run differs from the answer whose status is in the file `end`; empty if it does not."""
    base, command = end[:-len('.end')].rsplit('.', 1)
    status, said = read(end).split(b'\n', 1)
    words = [*player, *command.split('_')]
    done = subprocess.run(words, input=read(base + '.cap'), capture_output=True, timeout=SECONDS)
    if done.returncode != int(status):
        return 'status %d, and not %s: %r' % (done.returncode, status.decode(), done.stderr[:200])
    if done.stderr != said:
        return 'standard error %r, and not %r' % (done.stderr[:200], said[:200])
    return '' if done.stdout == read('%s.%s.out' % (base, command)) else 'other bytes on standard output'


def main(player: List[str], again: bool, vectors: str, every: int = 1, first: int = 0) -> int:
    """Runs and compares. Returns the status."""
    ends = sorted(glob.glob(os.path.join(vectors, '*', '*.end')))
    tried, differ, repeated = ends[first::every], 0, 0
    for end in tried:
        why = difference(end, player)
        if why and again:
            repeated += 1
            print('%s: repeated: %s' % (os.path.relpath(end, vectors), why), flush=True)
            why = difference(end, player)
        differ += bool(why)
        if why and differ <= SHOWN:
            print('%s: %s' % (os.path.relpath(end, vectors), why), flush=True)
    more = ', %d repeated' % repeated if again else ''
    print('%d of %d tried: %d same, %d differ%s' % (len(tried), len(ends), len(tried) - differ, differ, more))
    return 1 if differ or not tried else 0


if __name__ == '__main__':
    words = sys.argv[1:]
    is_again = words[:1] == ['--again']
    words = words[is_again:]
    at = words.index('--') if '--' in words else 0
    if not 1 <= at <= 3 or not words[at + 1:] or not all(it.isdecimal() for it in words[1:at]):
        sys.exit(__doc__)
    sys.exit(main(words[at + 1:], is_again, words[0], *map(int, words[1:at])))
