"""Where the time of a proof goes: seconds by crate, by function and by file of lemmas.

    python3 -m proving.times [--most N] [--keep] CRATE

proves CRATE by `rt check` with one processor, over the libraries below it, and prints the functions and the files of
lemmas that took longest (20), the longest first. `rt` itself prints no times. But its check writes a file for each
module that it has checked, one after another, so the time between two files is what the later one took.

What an earlier check kept is not proved again and has no time; a line says how many modules that are. For the times of
all, put an empty folder in the place of crates/CRATE/out/incremental first: where there is none, `rt` takes what another
checkout on this machine has kept. --keep writes the processor seconds of the crate to proving/seconds.txt,
by which plan.py plans, if all of it was proved in this run. Status: that of `rt`; 2 where there is nothing to be read.
"""
import argparse
import os
import re
import resource
import subprocess
import sys
import time
from typing import Dict, List, NamedTuple, Tuple

from proving.plan import ROOT, TIMES, measured, read_crates

# The modules that rattle makes of a function: what is after its path.
PARTS_OF_FUNCTION = ('Answers', 'Code', 'Contract', 'Given', 'Goals', 'Invariants', 'Kinds', 'Link', 'Lts', 'Met',
                     'Mir', 'Named', 'Proof', 'Start', 'Statement', 'Symbol', 'TheImpl', 'TheLink', 'TheLinks', 'Tie',
                     'decls')
NAME = re.compile(r'Rattle-(\w+?)[-.](\w+)\.(.+)\.oantt')


class Checked(NamedTuple):
    """A module that a check wrote: when, in nanoseconds, its file, and of what it is a part."""
    at: int
    file: str
    what: str


def subject_of(name: str) -> str:
    """Returns what a file that a check keeps is a part of: the path of a function, a type or a file of lemmas."""
    match = NAME.fullmatch(name)
    if match is None:
        return name
    path = match[3].split('.')
    while len(path) > 1 and path[-1] in PARTS_OF_FUNCTION:
        path.pop()
    return ('' if match[2] == 'proofs' else match[2] + '.') + '.'.join(path)


def read_kept(folder: str) -> List[Checked]:
    """Returns the modules that checks of a crate kept in a folder, the oldest first."""
    paths = [os.path.join(place, name) for place, _, names in os.walk(folder) for name in names
             if name.endswith('.oantt')]
    return sorted(Checked(os.stat(path).st_mtime_ns, path, subject_of(os.path.basename(path))) for path in paths)


def seconds_of(modules: List[Checked], start: int) -> Dict[str, float]:
    """Returns the seconds of each subject, from the modules that a check begun at `start` wrote one after another.

    The clock of a file may be some milliseconds late: such a file was written at the start.
    """
    seconds: Dict[str, float] = {}
    before = start
    for module in modules:
        at = max(module.at, before)
        seconds[module.what] = seconds.get(module.what, 0) + (at - before) / 1e9
        before = at
    return seconds


def prove(folder: str) -> Tuple[int, float]:
    """Proves the crate of a folder with one processor. Returns the status, and the processor seconds."""
    def used() -> float:
        spent = resource.getrusage(resource.RUSAGE_CHILDREN)
        return spent.ru_utime + spent.ru_stime
    before = used()
    status = subprocess.run(['rt', 'check', '--jobs', '1'], cwd=folder, stdout=sys.stderr, check=False).returncode
    return status, used() - before


def keep(name: str, seconds: float) -> None:
    """Writes the processor seconds of a crate to the file of times, in the order of its names."""
    with open(TIMES, encoding='utf-8') as file:
        head = [line for line in file if line.startswith('#')]
    rows = {**measured(), name: seconds}
    with open(TIMES + '.new', 'w', encoding='utf-8') as file:
        file.writelines(head)
        file.writelines('%s %d\n' % (crate, round(rows[crate])) for crate in sorted(rows))
    os.replace(TIMES + '.new', TIMES)


def main() -> int:
    """Proves a crate, prints its times, and returns the status."""
    words = argparse.ArgumentParser(description='Prints where the time of the proof of a crate goes.')
    words.add_argument('--most', type=int, default=20, metavar='N', help='how many functions and files (20)')
    words.add_argument('--keep', action='store_true', help='write the seconds of the crate to proving/seconds.txt')
    words.add_argument('crate', metavar='CRATE')
    given = words.parse_args()
    if given.crate not in read_crates():
        words.error('CRATE is a crate of crates.txt')
    folder = os.path.join(ROOT, 'crates', given.crate)
    kept = os.path.join(folder, 'out', 'incremental')
    earlier, start = set(read_kept(kept)), time.time_ns()
    status, spent = prove(folder)
    if status:
        return status
    modules = read_kept(kept)
    anew = [module for module in modules if module not in earlier]
    seconds = seconds_of(anew, start)
    if not seconds:
        print('%s: this check proved nothing anew: remove crates/%s/out/incremental for the times of all'
              % (given.crate, given.crate), file=sys.stderr)
        return 2
    for what in sorted(seconds, key=lambda it: -seconds[it])[:given.most]:
        print('%7.1f s  %s' % (seconds[what], what))
    print('%7.1f s  %s, %.0f processor seconds' % (sum(seconds.values()), given.crate, spent))
    if len(anew) < len(modules):
        print('%d of %d modules were kept by an earlier check and are not among these'
              % (len(modules) - len(anew), len(modules)))
    elif given.keep:
        keep(given.crate, spent)
    return 0


if __name__ == '__main__':
    sys.exit(main())
