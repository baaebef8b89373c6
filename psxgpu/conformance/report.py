"""What a run prints and writes: a table, some lines for each test that did not pass, JUnit XML, and JSON."""
from __future__ import annotations

import json
from collections import Counter
from typing import Dict, Iterable, List, Sequence
from xml.sax.saxutils import escape, quoteattr

from psxgpu.conformance.judging import DIFFERS, FAILED, KINDS, NOT_TAKEN, PASSED, TROUBLE, Verdict
from psxgpu.conformance.subject import subject_lines

INDENT = ' ' * 8            # of the lines below the name of a test
MOST_COLUMNS = 112          # of such a line, if it can be broken
ELEMENTS = {FAILED: 'failure', TROUBLE: 'error', DIFFERS: 'skipped', NOT_TAKEN: 'skipped'}      # of JUnit


def by_chapter(verdicts: Iterable[Verdict]) -> Dict[str, List[Verdict]]:
    """Returns the verdicts of each chapter."""
    out: Dict[str, List[Verdict]] = {}
    for verdict in verdicts:
        out.setdefault(verdict.test.chapter, []).append(verdict)
    return out


def counts(verdicts: Sequence[Verdict]) -> List[List[str]]:
    """Returns the rows of the table: a head, a row for each chapter, and one for all."""
    rows = [['chapter', 'tests', *KINDS]]
    for name, some in [*by_chapter(verdicts).items(), ('all', list(verdicts))]:
        number = Counter(verdict.kind for verdict in some)
        rows.append([name, str(len(some)), *(str(number[kind] or '') for kind in KINDS)])
    return rows


def table(verdicts: Sequence[Verdict]) -> str:
    """Returns the table in Markdown."""
    head, *rows = ('| %s |' % ' | '.join(row) for row in counts(verdicts))
    return '\n'.join([head, '|---|' + '---:|' * (len(KINDS) + 1), *rows])


def broken(line: str) -> List[str]:
    """Returns a line, or two if it is long: what a packet says comes in the second one."""
    head, _, rest = line.partition(' | ')
    return [head, '    ' + rest] if rest and len(line) > MOST_COLUMNS else [line]


def details(verdict: Verdict) -> List[str]:
    """Returns what a test is about, and how the player differs: what it has, and what is expected."""
    return [part for line in subject_lines(verdict.test) for part in broken(line)] + verdict.reason.split('; ')


def lines(verdicts: Iterable[Verdict]) -> List[str]:
    """Returns some lines for each test that was taken and did not pass: its rule, its packets, and both values."""
    out = []
    for verdict in verdicts:
        if verdict.kind not in (PASSED, NOT_TAKEN):
            out.append('%-7s %s: %s' % (verdict.kind, verdict.test.full_name, verdict.test.says))
            out += [INDENT + line for line in details(verdict)]
    return out


def counted_kinds(verdicts: Iterable[Verdict]) -> List[str]:
    """Returns how many tests ended in each way, as `3 failed`."""
    number = Counter(verdict.kind for verdict in verdicts)
    return ['%d %s' % (number[kind], kind) for kind in KINDS if number[kind]]


def not_taken(verdicts: Iterable[Verdict]) -> List[str]:
    """Returns a line for each reason for which tests are not taken: their number, and the reason."""
    reasons = Counter(verdict.reason for verdict in verdicts if verdict.kind == NOT_TAKEN)
    return ['not taken: %d test%s: %s' % (count, 's' * (count > 1), reason) for reason, count in reasons.items()]


def junit_case(verdict: Verdict) -> str:
    """Returns a test as an element of JUnit."""
    element = ELEMENTS.get(verdict.kind)
    message = (verdict.kind + ': ' if element == 'skipped' else '') + verdict.reason
    text = [] if verdict.kind == NOT_TAKEN else [verdict.test.says, *details(verdict)]
    inside = element and '<%s message=%s>%s</%s>' % (element, quoteattr(message), escape('\n'.join(text)), element)
    return '    <testcase classname=%s name=%s>%s</testcase>' % (
        quoteattr(verdict.test.chapter), quoteattr(verdict.test.name), inside or '')


def junit(verdicts: Sequence[Verdict], seconds: float) -> str:
    """Returns JUnit XML. A rule of this project that a player does not follow counts as skipped."""
    out = ['<?xml version="1.0" encoding="UTF-8"?>', '<testsuites name="conformance" time="%.3f">' % seconds]
    for name, some in by_chapter(verdicts).items():
        number = Counter(verdict.kind for verdict in some)
        out.append('  <testsuite name=%s tests="%d" failures="%d" errors="%d" skipped="%d">' % (
            quoteattr(name), len(some), number[FAILED], number[TROUBLE], number[DIFFERS] + number[NOT_TAKEN]))
        out += map(junit_case, some)
        out.append('  </testsuite>')
    return '\n'.join([*out, '</testsuites>', ''])


def as_json(verdicts: Iterable[Verdict]) -> str:
    """Returns an object with an entry for each test: its verdict and the reason."""
    rows = ('"%s": %s' % (verdict.test.full_name, json.dumps([verdict.kind, verdict.reason])) for verdict in verdicts)
    return '{\n%s\n}\n' % ',\n'.join(rows)
