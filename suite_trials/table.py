"""The table of rule by packet in docs/CONFORMANCE.md, made from the marks of the tests.

    python3 -m suite_trials.table                writes the table into the document
    python3 -m suite_trials.table --check        has each cell a test or a reason, and is the document's table this one?

Status: 0 all is so, 1 it is not.
"""
from __future__ import annotations

import os
import sys

from psxgpu.conformance.chapters import CHAPTERS
from psxgpu.conformance.table import faults, markdown, summary
from psxgpu.output import write_whole

DOCUMENT = os.path.join(os.path.dirname(os.path.dirname(os.path.abspath(__file__))), 'docs', 'CONFORMANCE.md')
BEGIN, END = '<!-- table of rule by packet -->\n', '<!-- end of the table -->'
EVERY = [test for chapter in CHAPTERS for test in chapter.tests]


def with_table(document: str) -> str:
    """Returns the document with the table of the tests, and the sentence before it."""
    before, rest = document.split(BEGIN)
    return '%s%s%s\n\n%s\n%s%s' % (before, BEGIN, summary(EVERY), markdown(EVERY), END, rest.split(END)[1])


def main() -> int:
    """Runs the command."""
    with open(DOCUMENT) as file:
        document = file.read()
    found, made = faults(EVERY), with_table(document)
    if sys.argv[1:] != ['--check']:
        write_whole(DOCUMENT, made.encode(), is_text=True)
    elif made != document:
        found.append('docs/CONFORMANCE.md: another table; python3 -m suite_trials.table writes it')
    print('\n'.join([*found, summary(EVERY)]))
    return int(bool(found))


if __name__ == '__main__':
    sys.exit(main())
