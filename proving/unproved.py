"""Plays a capture by a build of the program that is not proved: the program is compiled and run within a minute or two.

    python3 -m proving.unproved COMMAND.. < CAPTURE > OUT
    python3 -m proving.unproved --first-picture CAPTURE OUT

The first form is `make try`; the capture may be packed (.gz, .xz, .zst). The second writes the picture that `make run`
shows before it proves the program. Both compile with `rt try`. That build stops at an index out of bounds, an overflow
or a bad access. It checks no contract, and more than 1 MiB of output is an error.
Status: the program's own, or 7 if it gave no answer. With --first-picture 0, or 1 if there is no picture.
"""
import os
import re
import subprocess
import sys
import tempfile
import time
from typing import IO, BinaryIO, List, Tuple

from proving.plan import ROOT
from psxgpu.command import pour
from psxgpu.packing import Damaged, unpacked

CRATE = os.path.join(ROOT, 'crates', 'psxgpu_tool')
MOST_SECONDS = 600
NO_ANSWER = 7
NOT_PROVED = 'This build is not proved. It stops at an index out of bounds or an overflow, and checks no contract.'


def play(words: List[str], capture: IO[bytes], out: BinaryIO) -> Tuple[int, str]:
    """Plays a capture. Returns the program's status, and what it and `rt try` said."""
    done = subprocess.run(['rt', 'try', '--seconds', str(MOST_SECONDS), '--', *words], cwd=CRATE, stdin=capture,
                          stdout=out, stderr=subprocess.PIPE, text=True, errors='replace', check=False)
    ended = re.search(r'(?m)^run=ended status=(\d+) ', done.stderr)
    return int(ended[1]) if ended else NO_ANSWER, done.stderr


def of_the_program(said: str) -> str:
    """Returns what the program said, without the lines of `rt try`."""
    return lines_without(r'run=|races: |interpreter: |checked: |\s*$', said)


def without_answer(said: str) -> str:
    """Returns why there is no answer, without the output that `rt try` quotes: it may be binary."""
    return lines_without(r"\||the end of the program's standard output|interpreter: |\s*$", said)


def lines_without(pattern: str, said: str) -> str:
    """Returns the lines that do not begin with a pattern. Only a line feed ends a line."""
    return ''.join(line + '\n' for line in said.split('\n') if not re.match(pattern, line))


def first_picture(capture: str, picture: str) -> int:
    """Writes the first picture, and says what it is. Returns the status."""
    print('A first picture, before anything is proved: a minute or two.', flush=True)
    start = time.monotonic()
    os.makedirs(os.path.dirname(picture), exist_ok=True)
    with tempfile.TemporaryDirectory(dir=os.path.dirname(picture)) as folder:
        made = os.path.join(folder, 'picture')
        with open(capture, 'rb') as file, open(made, 'wb') as out:
            status, said = play(['shot'], file, out)
        if status:
            sys.stderr.write(without_answer(said) + 'There is no first picture. The proof begins.\n')
            return 1
        os.replace(made, picture)
    print('two-fills.png is there, after %d seconds. %s' % (time.monotonic() - start, NOT_PROVED), flush=True)
    return 0


def main(words: List[str]) -> int:
    """Plays what the words say. Returns the status."""
    if words[:1] == ['--first-picture'] and len(words) == 3:
        return first_picture(*words[1:])
    if not words or words[0].startswith('-'):
        sys.exit((__doc__ or '').split('\n\n')[1])
    print(NOT_PROVED, file=sys.stderr, flush=True)
    try:
        with unpacked('-', 'the capture') as capture, tempfile.TemporaryFile() as plain:
            pour(capture, plain)
            plain.seek(0)
            status, said = play(words, plain, sys.stdout.buffer)
    except Damaged as fault:
        print(fault, file=sys.stderr)
        return NO_ANSWER
    sys.stderr.write(without_answer(said) if status == NO_ANSWER else of_the_program(said))
    return status


if __name__ == '__main__':
    try:
        sys.exit(main(sys.argv[1:]))
    except KeyboardInterrupt:
        sys.exit(130)
