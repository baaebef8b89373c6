#!/usr/bin/env python3
"""Writes web/out/conformance.html, one file that needs nothing beside it: the page of web/suite_page with its script, the
machine (web/out/psxgpu.js, which `make web` makes) and the tests of the suite.

    python3 -m web.suite_page.pack [OUT]
"""
import base64
import json
import os
import struct
import sys
from typing import Dict, List

HERE = os.path.dirname(os.path.abspath(__file__))
WEB = os.path.dirname(HERE)

from psxgpu import __version__
from psxgpu.commands.conform import every_test
from psxgpu.conformance.released import COLUMNS, SUITE, expectation, sum_of
from psxgpu.conformance.suite import Test
from psxgpu.output import write_whole

MACHINE = os.path.join(WEB, 'out', 'psxgpu.js')
VERSION = '<span id="version"></span>'
ROW_BYTES = 2048
NO_TESTS = '<script type="application/json" id="tests"></script>'


def text_of(path: str) -> str:
    """Returns the text of a file."""
    with open(path, encoding='utf-8') as file:
        return file.read()


def filled_rows(memory: bytes) -> bytes:
    """Returns the number of rows of video memory, then the number and the cells of each row that is not all 0. A browser
    takes the sum of these few bytes in a tenth of the time."""
    rows = [memory[at:at + ROW_BYTES] for at in range(0, len(memory), ROW_BYTES)]
    filled = (struct.pack('<H', y) + row for y, row in enumerate(rows) if any(row))
    return struct.pack('<H', len(rows)) + b''.join(filled)


def expected(test: Test) -> str:
    """Returns the line of expected.tsv, in which the sum of video memory is that of its filled rows."""
    fields = expectation(test).split('\t')
    fields[COLUMNS.index('vram')] = sum_of(filled_rows(test.compared))
    return '\t'.join(fields)


def tests() -> List[Dict[str, str]]:
    """Returns the tests as the page takes them: the rule, the capture in base64, the line of what is expected."""
    return [{'says': test.says, 'capture': base64.b64encode(test.data).decode(), 'expected': expected(test)}
            for test in every_test()]


def page() -> str:
    """Returns the page."""
    given = json.dumps(tests()).replace('<', '\\u003c')
    parts = {VERSION: VERSION.replace('></', '>Suite %d of psxgpu %s.</' % (SUITE, __version__)), NO_TESTS: NO_TESTS.replace('></', '>%s</' % given)}
    for name, path in (('psxgpu.js', MACHINE), ('suite.js', os.path.join(HERE, 'suite.js'))):
        parts['<script src="%s"></script>' % name] = '<script>\n%s</script>' % text_of(path)
    text = text_of(os.path.join(HERE, 'index.html'))
    for part, whole in parts.items():
        if text.count(part) != 1:
            sys.exit('pack.py: web/suite_page/index.html has no line %s' % part)
        text = text.replace(part, whole)
    return text


def main() -> None:
    """Writes the page."""
    out = sys.argv[1] if len(sys.argv) > 1 else os.path.join(WEB, 'out', 'conformance.html')
    if not os.path.exists(MACHINE):
        sys.exit('pack.py: there is no web/out/psxgpu.js: make web makes it')
    write_whole(out, page().encode(), is_text=True)
    print('%s: %d bytes' % (os.path.relpath(out), os.path.getsize(out)))


if __name__ == '__main__':
    main()
