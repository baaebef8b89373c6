"""Compares the chapters of the suite with the sections of docs/MACHINE.md: each rule that has a "Where" line has tests.

    python3 -m suite_trials.sections

Status: 0 each section with a "Where" line has a chapter with tests, and each chapter a section; 1 not so.
"""
from __future__ import annotations

import os
import re
import sys
from typing import Dict, Iterator, List

from psxgpu.conformance.chapters import CHAPTERS

MACHINE = os.path.join(os.path.dirname(os.path.dirname(os.path.abspath(__file__))), 'docs', 'MACHINE.md')
CHAPTERS_OF: Dict[str, str] = {
    'Video memory': 'mask copies textures',
    'GP0 words and packets': 'opcodes lines loads cuts',
    'Fills': 'fills',
    'Copies, loads and stores': 'copies loads stores reads',
    'Where a primitive draws': 'area',
    'Polygons': 'polygons gouraud textures',
    'Lines': 'lines',
    'Rectangles': 'rectangles',
    'Textures': 'textures texels windows',
    'Pixels': 'dither modulation blending mask',
    'Registers': 'opcodes reads cuts display',
    'The status word': 'status',
    'The shown picture': 'display',
    'Main memory and DMA': 'dma',
    'Turns': 'turns',
    'The tall profile': 'tall',
}
NOT_OF_THE_CONSOLE = ('Notes', 'Taps, last items and the demo', 'Costs')        # what this player says of a run


def sections() -> List[str]:
    """Returns the titles of the sections that have a "Where" line, without what is in parentheses."""
    with open(MACHINE) as file:
        parts = re.split('^## ', file.read(), flags=re.M)[1:]
    return [re.sub(r' \(.*', '', part.split('\n', 1)[0]) for part in parts if re.search('^Where: ', part, re.M)]


def faults() -> Iterator[str]:
    """Yields a line for each section or chapter that has nothing on the other side."""
    tests = {chapter.name: len(chapter.tests) for chapter in CHAPTERS}
    there = sections()
    for title in there:
        if title not in CHAPTERS_OF and title not in NOT_OF_THE_CONSOLE:
            yield 'MACHINE.md, %s: a "Where" line without a chapter' % title
    for title, names in CHAPTERS_OF.items():
        if title not in there:
            yield '%s: not a section of MACHINE.md with a "Where" line' % title
        for name in names.split():
            if not tests.get(name):
                yield '%s: no chapter %s with tests' % (title, name)
    named = ' '.join(CHAPTERS_OF.values()).split()
    for name in tests:
        if name not in named:
            yield 'chapter %s: without a section' % name


def main() -> int:
    """Prints the faults. Returns the status."""
    found = list(faults())
    print('\n'.join([*found, '%d sections, %d chapters' % (len(sections()), len(CHAPTERS))]))
    return int(bool(found))


if __name__ == '__main__':
    sys.exit(main())
