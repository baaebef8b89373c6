"""Reports what a capture contains, and what is unfinished at its end.

    psxgpu check mine.capture
    psxgpu check *.capture --json

Prints its version, its events by kind, the number of frames (each ends with a write of the display start; what follows
the last one is a frame too if it has a packet), its packets by class, the refusal of psxgpu_tool if there is one, what
is unfinished at its end (a packet, a load, a store that waits for reads, a DMA transfer), and how much `slim` removes.

Status: 0 complete, 1 something is refused or unfinished, 2 an error.
"""
import argparse
import json
from typing import Dict

from psxgpu import jobs, progress
from psxgpu.command import DIFFERENT, SAME, ToolError, reason_of, title
from psxgpu.contents import Contents, contents
from psxgpu.files import plain
from psxgpu.output import Source
from psxgpu.players import player


def arguments(parser: argparse.ArgumentParser) -> None:
    """Adds the arguments of this tool."""
    parser.add_argument('captures', nargs='+', type=Source, metavar='CAPTURE',
                        help='captures or dumps of a GPU; - is standard input')
    parser.add_argument('--json', action='store_true', help='print a list of objects, one for each capture')
    jobs.argument(parser)
    player.argument(parser)


def looked_at(path: str, program: str, side_by_side: int) -> Contents:
    """Returns what a capture contains."""
    name = title(path)
    with progress.shown(name, is_quiet=True), plain(path) as copy:
        return contents(copy, name, program, side_by_side)


def run(words: argparse.Namespace) -> int:
    """Prints the reports. An error of one of several captures does not end the others."""
    program = player.find(words.player)
    found: Dict[str, Contents] = {}
    faults = []
    for path in dict.fromkeys(words.captures):
        try:
            found[title(path)] = looked_at(path, program, words.jobs)
        except (ToolError, OSError) as error:
            if len(words.captures) == 1:
                raise
            faults.append(reason_of(error) if isinstance(error, OSError) else str(error))
            continue
        if not words.json:
            heading = [title(path) + ':'] if len(words.captures) > 1 else []
            print('\n'.join(heading + found[title(path)].lines()), flush=True)
    if words.json:
        print(json.dumps([dict(capture=name, **one.as_object()) for name, one in found.items()], indent=1))
    if faults:
        raise ToolError('; '.join(faults))
    return SAME if all(one.is_well for one in found.values()) else DIFFERENT
