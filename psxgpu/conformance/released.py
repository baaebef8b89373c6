"""The released tests: a test keeps its name and what it expects, or is withdrawn by name.

SUITE is raised when tests are added or withdrawn. suite_trials/expected.tsv of the checkout has the line of each test
that was released.
"""
from __future__ import annotations

import hashlib
from itertools import groupby
from typing import Dict, Iterable, Iterator, List, Tuple

from psxgpu.conformance.suite import Test

SUITE = 2
WITHDRAWN: Dict[str, str] = {}          # full name: the reason
COLUMNS = ('test', 'decides', 'capture', 'vram', 'ignored', 'picture', 'words')


def sum_of(data: bytes) -> str:
    """Returns the SHA-256 of bytes in hexadecimal digits."""
    return hashlib.sha256(data).hexdigest()


def ignored_runs(test: Test) -> Iterator[Tuple[int, int, int]]:
    """Yields the cells whose value does not matter, as runs of a row: x, y and how many."""
    places = sorted((y, x) for x, y in test.draft.ignored)
    for (y, _), some in groupby(enumerate(places), key=lambda pair: (pair[1][0], pair[1][1] - pair[0])):
        row = [x for _, (_, x) in some]
        yield row[0], y, len(row)


def ignored(test: Test) -> str:
    """Returns the cells whose value does not matter: runs as X,Y or X,Y*COUNT, or `-`."""
    return ' '.join('%d,%d*%d' % (x, y, count) if count > 1 else '%d,%d' % (x, y)
                    for x, y, count in ignored_runs(test)) or '-'


def words(test: Test) -> str:
    """Returns the words that have to be read: WORD or WORD/MASK, with *COUNT if several are alike, or `-`."""
    texts = ('%08x' % one.word + ('' if one.mask == 0xFFFFFFFF else '/%08x' % one.mask) for one in test.draft.words)
    runs = ((text, len(list(some))) for text, some in groupby(texts))
    return ' '.join(text if count == 1 else '%s*%d' % (text, count) for text, count in runs) or '-'


def picture(test: Test) -> str:
    """Returns the size and the sum of the picture that has to be shown, `none` if there has to be none, or `-`."""
    wanted = test.draft.picture
    if wanted is None:
        return 'none' if test.draft.wants_no_picture else '-'
    return '%dx%d:%s' % (wanted.width, wanted.height, sum_of(wanted.pixels))


def expectation(test: Test) -> str:
    """Returns the line of a test. The sum of video memory is taken after the ignored cells are set to 0."""
    return '\t'.join((test.full_name, test.decides, sum_of(test.data), sum_of(test.compared), ignored(test),
                      picture(test), words(test)))


def expectations(tests: Iterable[Test]) -> str:
    """Returns the lines of tests, after one with the names of the columns."""
    return '\n'.join(['\t'.join(COLUMNS), *map(expectation, tests)]) + '\n'


def changes(tests: Iterable[Test], text: str, withdrawn: Dict[str, str]) -> List[str]:
    """Returns a line for each test that is not as `text` has it: changed, missing, or not in it yet. Who decides may
    change: that is a reading of psx-spx, and no expectation."""
    released = {line.split('\t')[0]: line.split('\t') for line in text.splitlines()[1:]}
    there = {test.full_name: expectation(test).split('\t') for test in tests}
    out = ['%s: released, but neither there nor withdrawn' % name
           for name in released if name not in there and name not in withdrawn]
    out += ['%s: withdrawn, but there' % name for name in there if name in withdrawn]
    for name, fields in there.items():
        if name not in released:
            out.append('%s: not released yet' % name)
        else:
            out += ['%s: %s was %s and is %s' % (name, column, old, new) for column, old, new
                    in zip(COLUMNS[2:], released[name][2:], fields[2:]) if old != new]
    return out
