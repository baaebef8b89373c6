#!/usr/bin/env python3
"""Compares the program of another system with this machine's program, run by run.

    python3 .ci/harness/check_same.py [--quick] [--every N] [--again] NATIVE -- WORD ..

WORD .. starts the other program, as systems/players/arm64. Each capture of examples/, and parts that NATIVE makes of
them (`cut`, `flat`, `slim`), are played in every command: whole, and cut off at places all over the file, from standard
input and by name. The bytes of both streams and the status are compared. --quick has a third of the places, --every N
each Nth run. --again repeats a run that differs once, prints its line and counts it: for an emulator that may lose a run.
The last line is `N same, M differ`. Status: 0 all are the same, 1 some differ.
"""
import argparse
import glob
import gzip
import itertools
import os
import subprocess
import sys
import tempfile
from typing import Dict, Iterator, List, NamedTuple, Tuple

ROOT = os.path.dirname(os.path.dirname(os.path.dirname(os.path.abspath(__file__))))
COMMANDS = ['play', 'vram', 'shot', 'frames', 'frames marks', 'sums', 'sums marks', 'list', 'report', 'flat', 'slim']
COMMANDS += ['pixel ' + cell for cell in ('0 0', '110 130', '248 40', '64 64', '16 0', '1023 1023', '1023 511')]
COMMANDS += ['cut 1', 'cut 7', 'cut 40', 'cut 4294967295']
CUT_OFF = ['play', 'list', 'sums', 'shot', 'flat', 'cut 3']
# Command lines that are wrong, or play no capture.
ALONE = ['--help', '--version', 'demo 1', 'demo 1000', 'demo 0', 'play one two', '', 'pixel 1024 0', 'pixel 01 0',
         'cut 0', 'help', 'frames what ever', 'slim x y', 'play no-such-file', 'play .']
BAD = [b'', b'PSXGPUC9', b'PSXGPUC1\1\0\0\7', b'\n\r\n\x1a\x1a\r\n' * 9, b'PSXGPUC1\r\n\x1a\2']
MOST = 1 << 20      # bytes of a capture of which parts are made
SHOWN = 10
SECONDS = 300


class Case(NamedTuple):
    """A run: the capture's name, the arguments, and the bytes, from standard input or in a file."""
    name: str
    command: str
    data: bytes
    is_file: bool = False


Result = Tuple[int, bytes, bytes]


def run(start: List[str], case: Case, folder: str) -> Result:
    """Returns the status and both streams of a run."""
    words, data = start + case.command.split(), case.data
    if case.is_file:
        with open(os.path.join(folder, 'a.capture'), 'wb') as file:
            file.write(data)
        words, data = words + ['a.capture'], b''
    done = subprocess.run(words, input=data, capture_output=True, timeout=SECONDS, cwd=folder)
    return done.returncode, done.stdout, done.stderr


def contents(path: str) -> bytes:
    """Returns the bytes of a capture, which may be packed."""
    with (gzip.open(path) if path.endswith('.gz') else open(path, 'rb')) as file:
        return file.read()


def captures(native: str, folder: str) -> Dict[str, bytes]:
    """Returns the examples and what is made of the small ones, by name."""
    paths = sorted(glob.glob(os.path.join(ROOT, 'examples', '*.capture*')))
    found = {os.path.basename(path).split('.')[0]: contents(path) for path in paths}
    for name, data in list(found.items()):
        for command in ('cut 5', 'flat', 'slim'):
            status, out, _ = run([native], Case(name, command, data), folder)
            if status == 0 and len(data) < MOST:
                found['%s, %s' % (name, command)] = out
    return found


def cases(found: Dict[str, bytes], step: int) -> Iterator[Case]:
    """Yields the runs; `step`: which of the places where a capture is cut off are taken."""
    for name, data in found.items():
        if ',' not in name:
            yield from (Case(name, command, data) for command in COMMANDS)
            places = {0, 7, 8, 9, 30, len(data) - 1} | {len(data) * k // 7 for k in range(1, 7)}
            for place in sorted(places)[::step]:
                yield from (Case('%s, %d bytes' % (name, place), command, data[:place]) for command in CUT_OFF)
        else:
            yield from (Case(name, command, data) for command in CUT_OFF)
        yield Case(name, 'sums', data, True)
    yield from (Case('two-fills', command, found['two-fills']) for command in ALONE)
    yield from (Case('bad', command, data) for data in BAD for command in COMMANDS[:11])


def title(case: Case) -> str:
    """Returns a run as a line has it."""
    return '%s: %s%s' % (case.name, case.command, ' FILE' if case.is_file else '')


def text_of(result: Result) -> str:
    """Returns a result as a line."""
    return 'status %d, %d bytes, %r' % (result[0], len(result[1]), result[2][:200])


def main(native: str, other: List[str], options: argparse.Namespace) -> int:
    """Runs and compares. Returns the status."""
    same = differ = repeated = 0
    with tempfile.TemporaryDirectory() as folder:
        every_case = cases(captures(native, folder), 3 if options.quick else 1)
        for case in itertools.islice(every_case, 0, None, options.every):
            want, got = run([native], case, folder), run(other, case, folder)
            if want != got and options.again:
                repeated += 1
                print('%s: repeated: %s' % (title(case), text_of(got)), flush=True)
                got = run(other, case, folder)
            same, differ = same + (want == got), differ + (want != got)
            if want != got and differ <= SHOWN:
                print(title(case), text_of(want), text_of(got), sep='\n    ', flush=True)
    print('%d same, %d differ%s' % (same, differ, ', %d repeated' % repeated if options.again else ''))
    return 1 if differ or not same else 0


def read_arguments(given: List[str]) -> Tuple[str, List[str], argparse.Namespace]:
    """Returns the native program, the words of the other one, and the options. Ends this program for other arguments."""
    cut = given.index('--') if '--' in given else len(given)
    parser = argparse.ArgumentParser(usage=__doc__)
    parser.add_argument('--quick', action='store_true')
    parser.add_argument('--again', action='store_true')
    parser.add_argument('--every', type=int, default=1)
    parser.add_argument('native')
    options, other = parser.parse_args(given[:cut]), given[cut + 1:]
    if not other:
        sys.exit(__doc__)
    other = [os.path.abspath(word) if os.path.isfile(word) else word for word in other]
    return os.path.abspath(options.native), other, options


if __name__ == '__main__':
    sys.exit(main(*read_arguments(sys.argv[1:])))
