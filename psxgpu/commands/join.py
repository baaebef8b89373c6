"""Joins captures of one session end to end: the events of the first, then those of the second, and so on.

    psxgpu join begin.capture rest.capture > whole.capture
    psxgpu join whole.capture next.capture -o whole.capture

The result has the greatest version among them. Captures of 512 and of 1024 rows (version 3) cannot be joined.

Status: 0 written, 2 an error, also if the result has more than 2^30 bytes, which a player refuses.
"""
import argparse
import os
from typing import Dict, Iterable

from psxgpu.command import ToolError, title
from psxgpu.files import is_plain, opened
from psxgpu.output import Grown, Source
from psxgpu.packing import packing
from psxgpu.stream import HEADS, Stream, encode

MOST_BYTES = 1 << 30


def arguments(parser: argparse.ArgumentParser) -> None:
    """Adds the arguments of this tool."""
    parser.add_argument('captures', nargs='+', type=Source, metavar='CAPTURE',
                        help='the captures in the order of the session')
    parser.add_argument('-o', '--output', type=Grown, default='-', metavar='OUTPUT',
                        help='the capture to write, which may be one of them; standard output if left out')


def version_of(paths: Iterable[str]) -> int:
    """Returns the version of the whole. Raises ToolError if the captures cannot be joined."""
    versions: Dict[int, str] = {}
    for path in paths:
        with opened(path) as file:
            versions[Stream(file, title(path)).version] = path
    if 3 in versions and len(versions) > 1:
        raise ToolError('%s and %s: 1024 and 512 rows' % (versions[3], versions[min(versions)]))
    return max(versions)


def run(words: argparse.Namespace) -> None:
    """Writes the whole."""
    if '-' in words.captures:
        raise ToolError('standard input: name files, since each is read twice')
    for path in words.captures:
        if os.path.exists(words.output) and os.path.samefile(path, words.output) and not is_plain(path):
            raise ToolError('%s is packed or a dump: name another output' % path)
    version, size = version_of(words.captures), 12
    with packing(words.output) as target:
        target.write(HEADS[version])
        for path in words.captures:
            with opened(path) as file:
                for record in Stream(file, path):
                    data = encode(*record)
                    size += len(data)
                    target.write(data)
        target.write(bytes(4))
        if size > MOST_BYTES:
            raise ToolError('the whole has %d bytes: a player refuses more than 2^30' % size)
