"""Known failures: the tests that a player did not pass before, in a file, so that only another failure is news.

The file is JSON: an object with the verdict and the reason of each test that did not pass. A file of `conform --json`
has the same form, and the tests that passed too.
"""
from __future__ import annotations

import json
from typing import Dict, Iterable, List, Sequence

from psxgpu.command import ToolError, read_whole, title
from psxgpu.conformance.judging import DIFFERS, FAILED, KINDS, PASSED, Verdict
from psxgpu.conformance.report import as_json, counted_kinds

ALIKE = (FAILED, DIFFERS)           # which of the two it is depends on who decides: that may change with the suite
Known = Dict[str, str]              # full name: the verdict


def read_known(path: str) -> Known:
    """Returns the verdicts of a file. Raises ToolError if it is none of --keep-expected or --json."""
    try:
        rows = json.loads(read_whole(path))
        known = {str(name): row[0] for name, row in rows.items()}
    except (ValueError, AttributeError, TypeError, LookupError, RecursionError):
        raise ToolError('%s: not a file of --keep-expected' % title(path)) from None
    for name, kind in known.items():
        if kind not in KINDS:
            raise ToolError('%s: %s: not a verdict: %r' % (title(path), name, kind))
    return known


def kept(verdicts: Iterable[Verdict]) -> str:
    """Returns the text of a file: the tests that did not pass."""
    return as_json(verdict for verdict in verdicts if verdict.kind != PASSED)


def is_known(verdict: Verdict, known: Known) -> bool:
    """Returns whether a test ended as it is known to end."""
    before = known.get(verdict.test.full_name, PASSED)
    return before == verdict.kind or before in ALIKE and verdict.kind in ALIKE


class Comparison:
    """Verdicts compared with those that are known. `news`: tests that did not pass and are not known to end so; `same`:
    tests that did not pass, as it is known; `better`: the names of known ones that pass now."""

    def __init__(self, verdicts: Sequence[Verdict], known: Known) -> None:
        self.news = [one for one in verdicts if one.kind != PASSED and not is_known(one, known)]
        self.same = [one for one in verdicts if one.kind != PASSED and is_known(one, known)]
        self.better = [one.test.full_name for one in verdicts
                       if one.kind == PASSED and known.get(one.test.full_name, PASSED) != PASSED]

    def lines(self) -> List[str]:
        """Returns the known tests that pass now, a line each, and one with the numbers."""
        known = ', '.join(counted_kinds(self.same)) or 'none'
        return ['passes now: ' + name for name in self.better] + ['known: ' + known]
