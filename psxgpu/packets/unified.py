"""Two lists of packets as a unified diff: entries that differ, and in them the lines that differ.

An entry is a packet, or an event at a port: its first line without the number of the event, and the lines of its
fields. Numbers of events are not compared, so that one more packet is one difference. The head of each part has them.

A part shows whole entries around its differences, and as many lines before the first as after the last: `patch` takes a
part with fewer lines on one side for one at that end of the file.
"""
from __future__ import annotations

import re
from bisect import bisect_left, bisect_right
from difflib import SequenceMatcher
from typing import Iterator, List, NamedTuple, Sequence, Tuple

CONTEXT = 2                 # entries around a difference, at least
MOST_LINES = 400            # of entries whose lines are compared with each other
Opcode = Tuple[str, int, int, int, int]


class Text(NamedTuple):
    """An entry as text: the number of its event, and its lines."""
    event: int
    lines: Tuple[str, ...]


class Change(NamedTuple):
    """Lines of ours that become other lines, of theirs."""
    first: int
    end: int
    to_first: int
    to_end: int


class Hunk(NamedTuple):
    """A part of the diff: differences, with lines around them that both have."""
    changes: List[Change]
    context: int


class Side:
    """The entries of one capture, and their lines."""

    def __init__(self, name: str, entries: Sequence[Text]) -> None:
        self.name, self.entries = name, entries
        self.lines = [line for entry in entries for line in entry.lines]
        self.starts = [0]                           # the first line of each entry, and the number of all
        for entry in entries:
            self.starts.append(self.starts[-1] + len(entry.lines))

    def title(self) -> str:
        """Returns the name as `diff` writes it: quoted if it has a special character, with a tab if it has a space."""
        if re.search(r'[\0-\x1f"\\\x7f]', self.name):
            return '"%s"' % re.sub(r'[\0-\x1f"\\\x7f]', lambda found: '\\%03o' % ord(found[0]), self.name)
        return self.name + ('\t' if ' ' in self.name else '')

    def event(self, line: int) -> str:
        """Returns the event of the entry that has a line, or that the capture has ended there."""
        at = bisect_right(self.starts, line) - 1
        return 'event %d' % self.entries[at].event if at < len(self.entries) else 'the end'

    def context(self, first: int, end: int) -> int:
        """Returns how many lines are shown before and after those that differ, so that whole entries are."""
        before = max(0, bisect_right(self.starts, first) - 1 - CONTEXT)
        after = min(len(self.entries), bisect_left(self.starts, end) + CONTEXT)
        return max(first - self.starts[before], self.starts[after] - end)


def opcodes(ours: Sequence[Text], theirs: Sequence[Text]) -> List[Opcode]:
    """Returns how one list becomes the other, as SequenceMatcher does. What is equal at both ends is not searched."""
    a, b = [entry.lines for entry in ours], [entry.lines for entry in theirs]
    head, most = 0, min(len(a), len(b))
    while head < most and a[head] == b[head]:
        head += 1
    tail = 0
    while tail < most - head and a[-1 - tail] == b[-1 - tail]:
        tail += 1
    inner = SequenceMatcher(None, a[head:len(a) - tail], b[head:len(b) - tail]).get_opcodes()
    found = [('equal', 0, head, 0, head)] if head else []
    found += [(tag, i + head, j + head, k + head, n + head) for tag, i, j, k, n in inner]
    return found + ([('equal', len(a) - tail, len(a), len(b) - tail, len(b))] if tail else [])


def line_opcodes(before: Sequence[str], after: Sequence[str]) -> List[Opcode]:
    """Returns how the lines of entries that differ become the others. Very many are not compared."""
    if len(before) + len(after) > MOST_LINES:
        return [('replace', 0, len(before), 0, len(after))]
    return SequenceMatcher(None, before, after, False).get_opcodes()


def changes(ours: Side, theirs: Side) -> Iterator[Change]:
    """Yields the lines that differ."""
    for tag, first, end, to_first, to_end in opcodes(ours.entries, theirs.entries):
        i, k = ours.starts[first], theirs.starts[to_first]
        if tag != 'equal':
            inner = line_opcodes(ours.lines[i:ours.starts[end]], theirs.lines[k:theirs.starts[to_end]])
            yield from (Change(i + a, i + b, k + c, k + d) for inner_tag, a, b, c, d in inner if inner_tag != 'equal')


def hunks(ours: Side, found: Iterator[Change]) -> List[Hunk]:
    """Returns the parts of the diff. Those that would touch are one."""
    parts: List[Hunk] = []
    for change in found:
        part = Hunk([change], ours.context(change.first, change.end))
        while parts and parts[-1].changes[-1].end + parts[-1].context >= part.changes[0].first - part.context:
            before = parts.pop()
            before.changes.extend(part.changes)
            part = Hunk(before.changes, max(before.context, part.context))
        parts.append(part)
    return parts


def span(first: int, count: int) -> str:
    """Returns lines as the head of a part names them: the number of the first one, and how many."""
    return '%d,%d' % (first + (count > 0), count)


def hunk_lines(ours: Side, theirs: Side, part: Hunk) -> Iterator[str]:
    """Yields the lines of a part."""
    one, last = part.changes[0], part.changes[-1]
    begin, end = max(0, one.first - part.context), min(len(ours.lines), last.end + part.context)
    to_begin, to_end = one.to_first - (one.first - begin), last.to_end + (end - last.end)
    yield '@@ -%s +%s @@ %s, %s' % (span(begin, end - begin), span(to_begin, to_end - to_begin),
                                    ours.event(one.first), theirs.event(one.to_first))
    at = begin
    for change in part.changes:
        yield from (' ' + line for line in ours.lines[at:change.first])
        yield from ('-' + line for line in ours.lines[change.first:change.end])
        yield from ('+' + line for line in theirs.lines[change.to_first:change.to_end])
        at = change.end
    yield from (' ' + line for line in ours.lines[at:end])


def unified(ours: Side, theirs: Side) -> Iterator[str]:
    """Yields the lines of the diff; none if all entries are equal."""
    parts = hunks(ours, changes(ours, theirs))
    if parts:
        yield '--- ' + ours.title()
        yield '+++ ' + theirs.title()
    for part in parts:
        yield from hunk_lines(ours, theirs, part)
