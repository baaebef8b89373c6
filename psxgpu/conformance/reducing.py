"""Reduces what a failed test shows: the smallest capture on which the player still differs from psxgpu_tool."""
from __future__ import annotations

import tempfile
from typing import List, Optional

from psxgpu.command import ToolError
from psxgpu.errors import counted
from psxgpu.conformance.answers import SECONDS
from psxgpu.conformance.judging import DIFFERS, FAILED, Verdict
from psxgpu.output import Folder, Tree, folder
from psxgpu.players import player
from psxgpu.players.flat import flattened
from psxgpu.players.named import Player, player_of
from psxgpu.reduce.faults import DumpsDiffer, Fault, WordsDiffer
from psxgpu.reduce.job import Job, Wanted
from psxgpu.reduce.report import files_of
from psxgpu.viewing.linked import page_of_reduced


def reduce_one(verdict: Verdict, ours: Player, theirs: Player, out: Folder, program: str) -> Optional[str]:
    """Reduces one failure, and writes CHAPTER-NAME.capture, .log, .py, .png and .html. Returns a line; None if
    psxgpu_tool and the player do not differ."""
    name = verdict.test.full_name.replace('/', '-')
    fault: Fault = DumpsDiffer() if verdict.dump is not None else WordsDiffer()
    with tempfile.NamedTemporaryFile(prefix='psxgpu') as file:
        file.write(verdict.test.data)
        file.flush()
        with Job(ours, theirs, Wanted(fault, []), SECONDS, 1) as job, flattened(file.name, program) as flat:
            found = job.result(flat, verdict.test.full_name)
    if found is None:
        return None
    notes = ['test: ' + verdict.test.full_name, verdict.test.says]
    files = [*files_of(found, name, notes), *page_of_reduced(found, name, notes)]
    paths = [out.put(file.path, file.data) for file in files]
    return '%s: %s, %s' % (verdict.test.full_name, counted(found.words, 'word'), paths[0])


def reduce_all(verdicts: List[Verdict], theirs: Player, path: Tree, given: Optional[str]) -> List[str]:
    """Reduces each failure whose cells or words differ. Returns a line for each. Raises ToolError without
    psxgpu_tool."""
    program = player.find(given)
    ours = player_of(program)
    lines = []
    with folder(path) as out:
        for verdict in verdicts:
            if verdict.kind not in (FAILED, DIFFERS) or verdict.shown is not None or verdict.test.draft.wants_no_picture:
                continue
            try:
                line = reduce_one(verdict, ours, theirs, out, program)
            except ToolError as error:
                line = '%s: not reduced: %s' % (verdict.test.full_name, error)
            lines.append(line or '%s: psxgpu_tool does the same' % verdict.test.full_name)
    return lines
