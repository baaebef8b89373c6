"""Writes one page with a recording inside, which opens in a browser at a place: a bug to send.

    psxgpu page wrong.capture -o bug.html --at 2947.60 --view drawn --cell 150,140 --note "the left face is yellow"
    psxgpu page ours.capture theirs.capture -o bug.html         the second is compared with the first
    psxgpu page game.psxgpu.zst -o bug.html --frame 1200        one frame, with the state before it

The page is the viewer (docs/VIEWER.md) with the recording in it. It needs no server and loads nothing. --at, --view,
--cell and --zoom are those of the viewer's links. Without --at it opens at the last frame. The same files and arguments
give the same bytes. `psxgpu view` opens such a page at once.

Status: 0 written, 2 an error.
"""
import argparse

from psxgpu.output import Target, writing
from psxgpu.viewing import asked
from psxgpu.viewing.template import page, viewer


def arguments(parser: argparse.ArgumentParser) -> None:
    """Adds the arguments of this tool."""
    asked.arguments(parser)
    parser.add_argument('-o', '--output', dest='out', type=Target, metavar='PAGE', required=True,
                        help='the page to write; - is standard output')


def run(words: argparse.Namespace) -> None:
    """Writes the page."""
    data = page(viewer(words.viewer), [asked.case_of(words)])
    with writing(words.out, words.captures, is_text=True) as file:
        file.write(data)
