"""Compares two dumps of video memory, two pictures (PPM, PNG), or two recordings frame by frame.

    psxgpu compare ours.bin theirs.bin difference.png
    psxgpu compare ours.ppm theirs.png --tolerance 8 --side side.png
    psxgpu compare before.capture after.psxgpu.zst difference.png

Prints `equal`, or the first cell that differs, the number of such cells, their bounding box, and their number by the
size of the difference. The difference of a cell is the greatest of its channels, in steps: 31 in a dump, 255 in a
picture. Bit 15 of a cell counts as a channel. PICTURE has equal cells in dark gray and different ones in red. The
picture of --side has ours, theirs and the difference.

Recordings are captures, snapshots or GPU dumps. psxgpu_tool makes their pictures. A frame ends with a write of the
display start, or with a mark (--marks). What follows the last one is a frame too if it has a packet. The tool prints
the number of the first frame that differs, from 1, its event in both recordings, the size and SHA-256 of both pictures,
and how they differ. If all frames are equal, it compares video memory and the picture at the end. Event numbers are
not compared, so an additional read of the status is no difference.

Status: 0 equal, 1 different, 2 an error.
"""
import argparse
import os
from typing import List, Tuple

from psxgpu import jobs, progress
from psxgpu.command import DIFFERENT, SAME, ToolError, decimal, title
from psxgpu.difference import Difference, Grid, beside
from psxgpu.files import is_recording, plain
from psxgpu.image import about, encoded, load_file
from psxgpu.output import Content, Picture, Source, once, write_several
from psxgpu.players import frames, player


def arguments(parser: argparse.ArgumentParser) -> None:
    """Adds the arguments of this tool."""
    parser.add_argument('ours', type=Source, metavar='OURS',
                        help='a dump of video memory, a picture, or a recording; - is standard input')
    parser.add_argument('theirs', type=Source, metavar='THEIRS', help='another of the same kind')
    once(parser, 'picture', Picture, 'the picture of the difference to write')
    parser.add_argument('--tolerance', type=decimal(0, 255), default=0, metavar='N',
                        help='cells whose channels are at most N steps apart count as equal')
    parser.add_argument('--side', type=Picture, metavar='PICTURE',
                        help='the picture to write of ours, theirs and the difference, side by side')
    parser.add_argument('--marks', action='store_true',
                        help='of recordings: frames end at marks (GP1 3Fh) and not at new display starts')
    jobs.argument(parser)
    player.argument(parser)


def are_recordings(paths: Tuple[str, str]) -> bool:
    """Returns whether recordings are compared. What comes from a pipe is of the kind of the other file. Raises ToolError
    if one file is a recording and the other is not."""
    found = [is_recording(path) for path in paths]
    if any(found) and any(not it and os.path.isfile(path) for it, path in zip(found, paths)):
        recording, other = paths if found[0] else paths[::-1]
        raise ToolError('%s is a recording, %s is not: compare it with a dump of the recording: '
                        'psxgpu_tool vram < %s > vram.bin' % (recording, other, recording))
    return any(found)


def shape_text(grid: Grid) -> str:
    """Returns width and height."""
    return '%d by %d' % (grid.width, grid.height)


def grids_of_files(paths: Tuple[str, str]) -> List[Grid]:
    """Returns the cells of two dumps or pictures. Raises ToolError if they are not of one kind and shape."""
    files = [(path, *load_file(path)) for path in paths]
    grids = [about(path, Grid, data, is_picture) for path, data, is_picture in files]
    if files[0][2] != files[1][2]:
        raise ToolError('%s and %s: a dump and a picture' % paths)
    if shape_text(grids[0]) != shape_text(grids[1]):
        raise ToolError('%s and %s: %s and %s' % (*paths, *map(shape_text, grids)))
    return grids


def show_difference(words: argparse.Namespace, grids: List[Grid]) -> int:
    """Prints how two grids of one shape differ, and draws it. Returns the status."""
    with progress.shown('compare', is_quiet=True):
        difference = Difference(grids[0], grids[1], words.tolerance)
    print('\n'.join(difference.lines()))
    pictures = [(words.picture, [difference.image()]),
                (words.side, [grid.image() for grid in grids] + [difference.image()])]
    write_several(Content(path, encoded(path, beside(images))) for path, images in pictures if path)
    return DIFFERENT if difference.count else SAME


def compare_recordings(words: argparse.Namespace) -> int:
    """Prints and draws the first difference of two recordings. Returns the status."""
    program, names = player.find(words.player), (title(words.ours), title(words.theirs))
    with plain(words.ours) as ours, plain(words.theirs) as theirs:
        with progress.shown('compare', is_quiet=True):
            finding = frames.first_difference(names, (ours, theirs), program, words.marks, words.jobs)
        print('\n'.join(finding.lines))
        if finding.is_same:
            return SAME
        data, is_picture = finding.contents((ours, theirs), program)
    grids = [Grid(it, is_picture) for it in data]
    if len(grids) == 2 and shape_text(grids[0]) == shape_text(grids[1]):
        return show_difference(words, grids)
    if words.picture or words.side:
        print('no picture is written: %s' % ('the frames are not of one size' if len(grids) == 2 else
                                             'one recording alone has the frame'))
    return DIFFERENT


def run(words: argparse.Namespace) -> int:
    """Prints the difference and draws it."""
    paths = words.ours, words.theirs
    if not are_recordings(paths):
        return show_difference(words, grids_of_files(paths))
    if words.tolerance:
        raise ToolError('--tolerance is for dumps of video memory and pictures')
    return compare_recordings(words)
