#!/usr/bin/env python3
"""Runs the programs of the conformance suite on an emulator that draws with our machine: each has to say that no test fails.

    python3 .ci/harness/suite_programs.py LIBRARY         libpsxgpu.a

The emulator is that of circle.py. The GPU of the bare processor has status bits of its own and keeps what comes while a
store is open: there the tests are left out that read the status or write into an open store.
Status: 0 no test fails, 1 some do, 77 nothing can run here.
"""
import argparse
import io
import os
import shutil
import sys
import tempfile

from circle import SKIPPED, Bare, Console, console_of

from psxgpu.commands.conform import every_test
from psxgpu.conformance.programs import Checked, Program, is_held, programs
from psxgpu.conformance.suite import Test
from psxgpu.console.orders import Orders
from psxgpu.stream import STAT, Stream

BLANKS = 900        # for circle.py: a program ends within four times as many


def is_for_bare(test: Test) -> bool:
    """Returns whether the bare processor can pass a test."""
    plan = Checked(Orders(0, False), test.draft.words)
    records = list(Stream(io.BytesIO(test.data), test.full_name))
    for record in records:
        plan.take(*record)
    return not plan.late and not plan.replaced and all(kind != STAT for kind, _, _ in records)


def faults(console: Console, folder: str, program: Program) -> str:
    """Returns what a program says, unless no test fails and no wait is too long."""
    path = os.path.join(folder, 'suite.exe')
    with open(path, 'wb') as file:
        file.write(program.executable())
    said = [line.lstrip(' *') for line in console.run(path, os.path.join(folder, 'suite.capture'), BLANKS)]
    wanted = 'FAILED: 000 OF %03d TESTS' % len(program.tests), 'WAITS TOO LONG: 000'
    return '' if all(line in said for line in wanted) else ' / '.join(said[-10:])


def main() -> int:
    """Runs all programs. Returns the status."""
    parser = argparse.ArgumentParser(description=(__doc__ or '').split('\n', 1)[0])
    parser.add_argument('library', help='libpsxgpu.a')
    parser.add_argument('--bare', action='store_true', help='the bare processor, even if pcsxr is here')
    words = parser.parse_args()
    if not shutil.which('gcc'):
        print('skipped: no gcc on this machine')
        return SKIPPED
    with tempfile.TemporaryDirectory(prefix='psxgpu') as folder:
        console = console_of(folder, words.library, words.bare)
        held = filter(is_held, every_test())
        made = programs(filter(is_for_bare, held) if isinstance(console, Bare) else held)
        wrong = list(filter(None, (faults(console, folder, program) for program in made)))
        print('\n'.join([*wrong, '%d tests in %d programs on %s, %d programs with faults' % (
            sum(len(program.tests) for program in made), len(made), type(console).__name__.lower(), len(wrong))]))
    return 1 if wrong else 0


if __name__ == '__main__':
    sys.exit(main())
