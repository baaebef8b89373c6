"""Plants faults in the model, one at a time, and names the tests that find each.

    python3 -m suite_trials.faults               a table: the fault, the number of tests that find it, their chapters
    python3 -m suite_trials.faults --names       the tests in place of their chapters
    python3 -m suite_trials.faults --quick       only the chapters of which one has to find it

A fault replaces methods of the model. It names the chapters of which one has to find it.
Status: 0 each fault was found there, 1 some were not, 2 an error (the model without a fault does not pass).
"""
from __future__ import annotations

import argparse
import sys
from typing import Iterable, Iterator, List

from suite_trials import planted_cells, planted_kinds, planted_registers, planted_shapes
from suite_trials.model import Model
from suite_trials.planted import FAULTS, Fault
from psxgpu.conformance.chapters import CHAPTERS
from psxgpu.conformance.judging import PASSED, Judge
from psxgpu.conformance.suite import Test

__all__ = ['FAULTS', 'finds', 'planted_cells', 'planted_kinds', 'planted_registers', 'planted_shapes']


def finds(one: Fault, chapters: Iterable[str] = ()) -> Iterator[Test]:
    """Yields the tests that a model with the fault does not pass: those of some chapters, or of all."""
    judge = Judge(one.make())
    return (test for chapter in CHAPTERS if not chapters or chapter.name in chapters
            for test in chapter.tests if judge.judge(test).kind != PASSED)


def row(one: Fault, tests: List[Test], names: bool) -> str:
    """Returns the row of a fault."""
    chapters = list(dict.fromkeys(test.chapter for test in tests))
    is_found = any(chapter in one.chapters for chapter in chapters)
    note = '' if is_found else ' **not in %s**' % ' or '.join(one.chapters)
    return '| %s | %d | %s%s |' % (one.name, len(tests), ', '.join(
        [test.full_name for test in tests] if names else chapters), note)


def quick() -> int:
    """Plants each fault, and runs the chapters alone of which one has to find it. Returns the status."""
    missed = [one.name for one in FAULTS if next(finds(one, one.chapters), None) is None]
    print('\n'.join(['%s: not found' % name for name in missed]
                    + ['%d planted faults, %d not found in their chapters' % (len(FAULTS), len(missed))]))
    return int(bool(missed))


def main() -> int:
    """Runs the command."""
    parser = argparse.ArgumentParser(description=__doc__, formatter_class=argparse.RawDescriptionHelpFormatter)
    parser.add_argument('--names', action='store_true', help='name the tests that find each')
    parser.add_argument('--quick', action='store_true', help='run no other chapters than those that have to find it')
    words = parser.parse_args()
    wrong = list(finds(Fault('none', (), Model)))
    if wrong:
        print('faults: the model itself fails %s' % ', '.join(test.full_name for test in wrong), file=sys.stderr)
        return 2
    if words.quick:
        return quick()
    missed, single = 0, []
    print('| planted fault | found by | in |\n|---|---:|---|')
    for one in FAULTS:
        tests = list(finds(one))
        missed += not any(test.chapter in one.chapters for test in tests)
        if len(tests) == 1:
            single.append((one.name, tests[0].full_name))
        print(row(one, tests, words.names), flush=True)
    print('\n%d faults, %d not found in their chapters; %d are found by exactly one test:'
          % (len(FAULTS), missed, len(single)))
    for name, test in single:
        print('- %s: %s' % (name, test))
    return int(missed > 0)


if __name__ == '__main__':
    sys.exit(main())
