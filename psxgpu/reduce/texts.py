"""A reduced capture in words: as a log for `from-log`, as a Python script, and what each unit is."""
from __future__ import annotations

import re
from typing import Iterator, List, Sequence, Tuple

from psxgpu import capture
from psxgpu.packets.control import control
from psxgpu.packets.fields import fields
from psxgpu.packets.split import Splitter
from psxgpu.reduce.calls import named_text, words_text
from psxgpu.reduce.units import CONTROL, Unit
from psxgpu.stream import GP0, GP1, KINDS, STAT

WORDS_IN_LINE = 8


def described(units: Sequence[Unit], is_tall: bool) -> Iterator[Tuple[Unit, str]]:
    """Yields each unit with what it is: its name and its fields."""
    splitter = Splitter(is_tall)
    for unit in units:
        if unit.name == CONTROL:
            splitter.control(unit.words[0])
            yield unit, control(unit.words[0], splitter.rows)
        elif unit.records:
            for kind, _, words in unit.records:
                for _ in splitter.push(words) if kind == GP0 else ():
                    pass
            yield unit, ', '.join('%d %s' % (max(1, len(words)) if kind in (GP0, GP1) else count, KINDS[kind].lower())
                                  for kind, count, words in unit.records)
        else:
            found = list(splitter.push(unit.words))[:1]
            yield unit, '%s: %s' % (unit.name, '; '.join(
                text for name, packet, _ in found for text in fields(name, packet, splitter.registers, splitter.rows)))


def log_lines(units: Sequence[Unit], is_tall: bool) -> Iterator[str]:
    """Yields the lines of a log for `from-log`, with what each packet is after #."""
    if is_tall:
        yield 'version 3'
    for unit, text in described(units, is_tall):
        if unit.records:
            for kind, count, words in unit.records:
                values = ['%08x' % word for word in words] or ([str(count)] if kind != STAT else [])
                yield ' '.join([KINDS[kind].lower()] + values)
            continue
        name = 'gp1' if unit.name == CONTROL else 'gp0'
        for at in range(0, len(unit.words), WORDS_IN_LINE):
            words_there = ' '.join('%08x' % word for word in unit.words[at:at + WORDS_IN_LINE])
            yield '%s %s%s' % (name, words_there, '    # ' + text if at == 0 else '')


def record_lines(unit: Unit) -> Iterator[str]:
    """Yields the statements for a unit that is no packet."""
    for kind, count, words in unit.records:
        if kind in (GP0, GP1):
            yield 'capture.%s(%s)' % (KINDS[kind].lower(), words_text(words))
        else:
            yield 'capture.%s(%d)' % (KINDS[kind].lower(), count)


def statement_lines(units: Sequence[Unit], is_tall: bool) -> Iterator[str]:
    """Yields the statements that make the capture, with what they make after #."""
    for unit, text in described(units, is_tall):
        if unit.name == CONTROL:
            yield 'capture.gp1(0x%08X)  # %s' % (unit.words[0], text)
        elif unit.records:
            yield from record_lines(unit)
        else:
            made = named_text(unit)
            if made.startswith('['):
                yield '# ' + text
            yield 'capture.gp0(%s)' % made


def script(units: Sequence[Unit], is_tall: bool, name: str, headline: str) -> str:
    """Returns a Python script that writes the capture as `name`, or where its first argument says."""
    statements = list(statement_lines(units, is_tall))
    code = '\n'.join(statements)
    used = sorted({word for word in re.findall(r'\b([a-z_]+)\(', code) if hasattr(capture, word)} | {'Capture'})
    quoted = headline.replace('\\', '\\\\').replace('"""', "'''")
    lines: List[str] = ['"""%s\n"""' % quoted, 'import sys', '',
                        'from psxgpu.capture import ' + ', '.join(used), '',
                        'capture = Capture(%s)' % (3 if is_tall else ''), *statements,
                        'capture.save(sys.argv[1] if len(sys.argv) > 1 else %r)' % name]
    return '\n'.join(lines) + '\n'
