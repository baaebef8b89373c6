"""What a test is about, as text: its packets with their fields, or its control words and DMA."""
from __future__ import annotations

import io
from typing import Iterator, List, Sequence

from psxgpu.conformance.suite import Test
from psxgpu.packets.control import control
from psxgpu.packets.fields import fields
from psxgpu.packets.parts import Registers
from psxgpu.packets.split import Splitter
from psxgpu.stream import BEGIN, DMA, GP0, GP1, KINDS, READ, STAT, Stream

MOST_LINES, MOST_WORDS = 6, 24


def words_text(words: Sequence[int]) -> str:
    """Returns words in hexadecimal digits, or the first of them."""
    return ' '.join('%08x' % word for word in words[:MOST_WORDS]) + (' ..' if len(words) > MOST_WORDS else '')


def packet_line(name: str, words: Sequence[int], registers: Registers, rows: int) -> str:
    """Returns a packet: its name, its words and, after a bar, what they say. `registers`, `rows`: as `fields` has
    them."""
    texts = fields(name, words, registers, rows)
    return '%s %s' % (name, words_text(words)) + (' | ' + '; '.join(texts) if texts else '')


def record_line(kind: int, count: int, words: Sequence[int], rows: int) -> str:
    """Returns a record that is not of GP0: its name, its words, and what a control word does. `rows`: of video
    memory."""
    channel = ['%d' % count] if kind in (DMA, BEGIN) or not words else []
    line = ' '.join([KINDS[kind].lower(), *channel, *([words_text(words)] if words else [])])
    return line + (' | ' + control(words[0], rows) if kind == GP1 else '')


def completed(splitter: Splitter, words: Sequence[int], rows: int) -> Iterator[str]:
    """Yields the line of each packet that words complete."""
    for name, packet, _ in splitter.push(words):
        yield packet_line(name, packet, splitter.registers, rows)


def lines_of(test: Test) -> Iterator[str]:
    """Yields the packets that a test is about and its records that are not of GP0 in order, reads left out."""
    splitter = Splitter(test.version == 3)
    for at, (kind, count, words) in enumerate(Stream(io.BytesIO(test.data), test.full_name, exact=True)):
        if kind == GP0:
            yield from (line for line in completed(splitter, words, test.rows) if at in test.draft.about)
            continue
        if kind == GP1:
            splitter.control(words[0])
        if kind not in (READ, STAT):
            yield record_line(kind, count, words, test.rows)


def subject_lines(test: Test) -> List[str]:
    """Returns the lines of what a test is about, or the first of them."""
    lines = list(lines_of(test)) or [words_text(test.draft.subject)]
    more = len(lines) - MOST_LINES
    return lines if more <= 0 else [*lines[:MOST_LINES], '.. and %d more' % more]
