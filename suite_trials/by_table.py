"""Plants each fault of the table in each kind of packet that has the rule. A test that marks the cell has to find it.

    python3 -m suite_trials.by_table             all of them
    python3 -m suite_trials.by_table 12 5        every twelfth of them, from the fifth on

Status: 0 each was found, 1 some were not, 2 an error (the model without a fault does not pass).
"""
from __future__ import annotations

import sys
import time
from typing import Dict, List, Tuple

from suite_trials import table_pixels, table_places, table_texels
from suite_trials.kinds import KindModel, planted
from suite_trials.table_faults import FAULTS, TableFault
from psxgpu.conformance.chapters import CHAPTERS
from psxgpu.conformance.judging import PASSED, Judge
from psxgpu.conformance.packets import KINDS
from psxgpu.conformance.suite import Test
from psxgpu.conformance.table import REASONS

__all__ = ['FAULTS', 'table_pixels', 'table_places', 'table_texels']
EVERY = [test for chapter in CHAPTERS for test in chapter.tests]
Marked = Dict[Tuple[str, str], List[Test]]


def marked() -> Marked:
    """Returns the tests of each cell, the shortest first."""
    out: Marked = {}
    for test in sorted(EVERY, key=lambda test: len(test.data)):
        for mark in test.marks:
            out.setdefault(mark, []).append(test)
    return out


def is_found(fault: TableFault, tests: List[Test], judge: Judge) -> bool:
    """Returns whether one of the tests fails on the model with the fault."""
    judge.player = planted(fault.kind.__eq__, fault.method, fault.broken)
    return any(judge.judge(test).kind != PASSED for test in tests)


def bare() -> List[str]:
    """Returns the cells in which a rule applies and nothing is planted."""
    there = {(fault.rule, fault.kind) for fault in FAULTS}
    return ['%s: %s: nothing is planted' % (rule, kind.name) for rule, reason in REASONS.items() for kind in KINDS
            if not reason(kind) and (rule, kind) not in there]


def main() -> int:
    """Runs the command."""
    step, first = (int(sys.argv[1]), int(sys.argv[2])) if len(sys.argv) == 3 else (1, 1)
    judge, tests = Judge(KindModel()), marked()
    wrong = [test.full_name for test in EVERY if test.marks and judge.judge(test).kind != PASSED]
    if wrong:
        print('by_table: the model itself fails %s' % ', '.join(wrong), file=sys.stderr)
        return 2
    start, some, missed = time.process_time(), FAULTS[first - 1::step], bare()
    for fault in some:
        if not is_found(fault, tests.get((fault.rule, fault.kind.name), []), judge):
            missed.append('%s: %s: %s: not found' % (fault.rule, fault.kind.name, fault.says))
    for line in missed:
        print(line)
    print('%d of %d faults planted by the table, %d not found; %d seconds of the processor'
          % (len(some), len(FAULTS), len(missed), time.process_time() - start))
    return int(bool(missed))


if __name__ == '__main__':
    sys.exit(main())
