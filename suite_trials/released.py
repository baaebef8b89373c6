"""Compares the suite with the released expectations, suite_trials/expected.tsv.

    python3 -m suite_trials.released             a line for each test that is changed, missing or not released
    python3 -m suite_trials.released --add       releases the new tests: appends their lines

A released line never changes. A wrong test is withdrawn: it leaves its chapter, its name goes into WITHDRAWN of
psxgpu/conformance/released.py with the reason, and SUITE is raised. Its line stays.
Status: 0 all are as released, 1 some are not.
"""
from __future__ import annotations

import argparse
import os
import sys

from psxgpu.conformance.chapters import CHAPTERS
from psxgpu.conformance.released import WITHDRAWN, changes, expectations
from psxgpu.output import write_whole

PATH = os.path.join(os.path.dirname(os.path.abspath(__file__)), 'expected.tsv')


def main() -> int:
    """Runs the command."""
    parser = argparse.ArgumentParser(description=__doc__, formatter_class=argparse.RawDescriptionHelpFormatter)
    parser.add_argument('--add', action='store_true', help='release the new tests')
    words = parser.parse_args()
    tests = [test for chapter in CHAPTERS for test in chapter.tests]
    text = ''
    if os.path.exists(PATH):
        with open(PATH) as file:
            text = file.read()
    names = {line.split('\t')[0] for line in text.splitlines()}
    if words.add:
        head, *rest = expectations(test for test in tests if test.full_name not in names).splitlines(keepends=True)
        text = (text or head) + ''.join(rest)
        write_whole(PATH, text.encode(), is_text=True)
    found = changes(tests, text, WITHDRAWN)
    print('\n'.join([*found, '%d tests, %d not as released' % (len(tests), len(found))]))
    return int(bool(found))


if __name__ == '__main__':
    sys.exit(main())
