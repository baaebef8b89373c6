"""The smallest capture of a finding: what differs between the player and its reference."""
from __future__ import annotations

import os
import tempfile
from typing import List

from psxgpu.command import ToolError
from psxgpu.errors import counted
from psxgpu.corpus.findings import Finding
from psxgpu.corpus.play import Player
from psxgpu.corpus.scan import copy_first, frames
from psxgpu.output import Folder
from psxgpu.players.flat import flattened
from psxgpu.reduce.faults import DumpsDiffer, Fault, WordsDiffer
from psxgpu.reduce.job import Job, Wanted
from psxgpu.reduce.report import files_of, report_lines
from psxgpu.viewing.linked import page_of_reduced


def reduce_finding(finding: Finding, path: str, player: Player, reference: Player, out: Folder) -> None:
    """Writes the reduced capture of a finding that says `different` into a folder, and adds to the finding what it is.
    A finding that cannot be reduced gets a line that says why."""
    faults: List[Fault] = [DumpsDiffer()] + ([WordsDiffer()] if finding.other_words else [])
    last = frames(path)[1]
    notes = ['ours: ' + reference.command.text, 'theirs: ' + player.command.text]
    name = os.path.splitext(finding.name.replace('/', '-'))[0]
    try:
        with tempfile.NamedTemporaryFile(prefix='psxgpu') as part:
            copy_first(path, last if finding.high is None else min(finding.high, last), part)
            part.flush()
            with flattened(part.name) as flat:
                for fault in faults:
                    with Job(reference.command, player.command, Wanted(fault, []), reference.limit) as job:
                        found = job.result(flat, finding.name)
                    if found:
                        files = [*files_of(found, name, notes), *page_of_reduced(found, name + '-reduced', notes)]
                        paths = [out.put(file.path, file.data) for file in files]
                        finding.links = [os.path.relpath(path, out.path) for path in paths]
                        finding.lines.append('reduced: %s, %s: %s' % (
                            counted(len(found.units), 'packet'), counted(found.words, 'word'), paths[0]))
                        finding.lines += report_lines(found)[2:]
                        return
        finding.lines.append('not reduced: the first events alone show no difference')
    except (ToolError, OSError, ValueError) as error:
        finding.lines.append('not reduced: %s' % error)
