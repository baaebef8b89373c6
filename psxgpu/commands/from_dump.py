"""Converts a GPU dump of DuckStation or PCSX-Redux (.psxgpu, also as .gz, .xz or .zst) to a capture.

    psxgpu from-dump game.psxgpu.zst -o game.capture
    psxgpu_tool frames marks game.capture | ffmpeg -f image2pipe -c:v ppm -i - film.mp4

Words for GP0 and GP1 become the words of a capture, a VSync becomes the mark of a frame (GP1(3Fh)), and words that are
discarded or read back become reads. A dump of a GPU with 2 MB becomes a capture of version 3, every other one of
version 1. Packets of unknown types are left out and counted. --about prints the descriptions in the dump, and the event
after which its trace begins: `psxgpu_tool cut N` makes a snapshot of the state there. --reads writes the words that
were read when the dump was made, as `psxgpu_tool play` prints them: a line for each read, `--------` if the dump does
not have its word. All tools read dumps directly. docs/DUMPS.md has the details.

Status: 0 written; 2 an error. If the dump is cut or invalid, the error names the byte, and the capture has everything
before it.
"""
from __future__ import annotations

import argparse
import contextlib
import sys
from typing import Callable, Iterator, Optional

from psxgpu.dumps.reader import Dump
from psxgpu.dumps.translation import END, Translation
from psxgpu.output import Packed, Source, Target, once, writing
from psxgpu.packing import Damaged, packing, unpacked
from psxgpu.errors import title


def arguments(parser: argparse.ArgumentParser) -> None:
    """Adds the arguments of this tool."""
    parser.add_argument('dump', nargs='?', type=Source, default='-', help='the dump; standard input if left out')
    once(parser, 'output', Packed, 'the capture to write; standard output if left out', '-')
    parser.add_argument('--about', action='store_true', help='print the descriptions in the dump on standard error')
    parser.add_argument('--reads', type=Target, metavar='FILE', help='write the words that were read, a line each')


@contextlib.contextmanager
def lines_into(path: Optional[str], source: str) -> Iterator[Optional[Callable[[str], object]]]:
    """What writes text to a file, which must not be `source`; None without a path."""
    if path is None:
        yield None
        return
    with writing(path, [source], is_text=True) as file:
        yield lambda text: file.write(text.encode('ascii'))


def run(words: argparse.Namespace) -> None:
    """Writes the capture. The one of a damaged dump is finished first."""
    name, damaged = title(words.dump), None
    with unpacked(words.dump) as source:
        dump = Dump(source, name)
        with packing(words.output, [words.dump]) as target, lines_into(words.reads, words.dump) as reads:
            translation = Translation(dump, reads)
            try:
                for piece in translation:
                    target.write(piece)
            except Damaged as fault:
                target.write(END)
                damaged = fault
    if words.about:
        print('\n'.join(translation.lines()), file=sys.stderr)
    for line in translation.unknown_lines():
        print('%s: %s' % (name, line), file=sys.stderr)
    if damaged:
        raise damaged
