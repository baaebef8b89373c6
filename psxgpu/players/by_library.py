#!/usr/bin/env python3
"""Plays a capture from standard input by libpsxgpu, as psxgpu_tool does, for tools that find no program.

    by_library.py COMMAND.. < CAPTURE > OUT

`flat`, `slim` and `demo` are the program's alone. Status: 0 all was written, 1 wrong arguments or no library, 2 the
capture is refused, 5 no memory.
"""
import os
import sys
from typing import List

if __name__ == '__main__':      # the package, and not its folder
    sys.path[0] = os.path.dirname(os.path.dirname(os.path.dirname(os.path.abspath(__file__))))

from psxgpu.command import ToolError
from psxgpu.machine.library import Missing, OutOfMemory, Refused, library
from psxgpu.machine.playing import MODES, play
from psxgpu.machine.recording import Recording

USAGE, REFUSED, MEMORY = 1, 2, 5


def is_there() -> bool:
    """Returns whether there is a library that plays."""
    try:
        return library().has('play')
    except Missing:
        return False


def is_number(word: str) -> bool:
    """Returns whether a word is a decimal number."""
    return word.isascii() and word.isdigit()


def output_of(words: List[str], data: bytes) -> bytes:
    """Returns what a command writes of a capture. Raises ValueError if the library has no such command."""
    name, numbers = ' '.join(words), [int(it) for it in words[1:] if is_number(it)]
    if words[:1] == ['pixel'] and len(words) == 3 and len(numbers) == 2:
        return play(data, 'pixel', (numbers[0], numbers[1]))
    if words[:1] == ['cut'] and len(words) == 2 and numbers:
        return Recording(data).cut(numbers[0])
    if name not in MODES or name == 'pixel':
        raise ValueError('`%s` needs the program psxgpu_tool: libpsxgpu plays no such command' % name)
    return play(data, name)


def main(words: List[str]) -> int:
    """Plays standard input. Returns the status."""
    output, status, line = b'', 0, ''
    try:
        output = output_of(words, sys.stdin.buffer.read())
    except Refused as bad:
        output, status, line = bad.output, REFUSED, str(bad)
    except OutOfMemory as bad:
        status, line = MEMORY, str(bad)
    except (Missing, ValueError, ToolError) as bad:
        status, line = USAGE, 'psxgpu: %s' % bad
    sys.stdout.buffer.write(output)
    sys.stdout.buffer.flush()
    if line:
        print(line, file=sys.stderr)
    return status


if __name__ == '__main__':
    sys.exit(main(sys.argv[1:]))
