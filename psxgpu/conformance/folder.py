"""Writes the tests as files, for emulators that take no captures.

    captures/CHAPTER/NAME.capture       each test
    flat/CHAPTER/NAME.capture           the same without main memory and DMA, in version 1 (3 if video memory is tall)
    dumps/CHAPTER/NAME.psxgpu           the same as dumps of a GPU
    programs/suite-1.exe ..             programs for the console that hold many tests, and show a square for each
    programs/squares.tsv                which square is which test
    exe/CHAPTER/NAME.exe                each as a program of its own, which shows what differs from psxgpu_tool
    expected.tsv                        what has to come out of each
"""
from __future__ import annotations

import io
import tempfile
from typing import Dict, List, Optional, Sequence

from psxgpu import progress
from psxgpu.command import ToolError
from psxgpu.conformance import programs
from psxgpu.conformance.released import expectations
from psxgpu.conformance.suite import Test
from psxgpu.console import executable
from psxgpu.dumps.export import About, Export
from psxgpu.output import Folder as Output
from psxgpu.output import folder
from psxgpu.players import player
from psxgpu.stream import HEADS, SKIP, Stream, encode

MAKER = 'psxgpu conform --write'
MACHINE = frozenset(('dma', 'turns'))       # what a test needs whose capture is not flat


def in_version(data: bytes, version: int) -> Optional[bytes]:
    """Returns a flat capture in this version; None if it has a read whose word is not shown, which needs version 2."""
    out = [HEADS[version]]
    for kind, count, words in Stream(io.BytesIO(data), 'flat capture'):
        if kind == SKIP and version == 1:
            return None
        out.append(encode(kind, count, words))
    return b''.join(out) + bytes(4)


class Folder:
    """The folder that is written. `program`: the path of psxgpu_tool, or None. `has_programs`: programs for the
    console are written, too. `left_out`: how many files of each kind could not be made."""

    def __init__(self, out: Output, program: Optional[str], has_programs: bool = False) -> None:
        self.out, self.program, self.has_programs = out, program, has_programs
        self.left_out: Dict[str, int] = {}

    def put(self, kind: str, test: Test, ending: str, data: bytes) -> None:
        """Writes a file of a test."""
        self.out.put('%s/%s%s' % (kind, test.full_name, ending), data)

    def leave_out(self, kind: str) -> None:
        """Counts a file that cannot be made."""
        self.left_out[kind] = self.left_out.get(kind, 0) + 1

    def flat(self, test: Test) -> Optional[bytes]:
        """Returns the flat capture of a test; None if psxgpu_tool is needed and not there."""
        if not test.needs & MACHINE:
            return test.data
        if self.program is None:
            return None
        with tempfile.NamedTemporaryFile(prefix='psxgpu') as file:
            file.write(test.data)
            file.flush()
            with player.playing(self.program, ['flat'], file.name) as run:
                data = run.out.read()
                run.expect_whole()
        return data

    def executable(self, test: Test) -> Optional[bytes]:
        """Returns the program for the console; None if there is none."""
        if self.program is None or test.version == 3:
            return None
        try:
            return executable(test.data, check=True, tool=self.program)
        except ToolError:
            return None

    def test(self, test: Test) -> None:
        """Writes all files of a test."""
        self.put('captures', test, '.capture', test.data)
        flat = self.flat(test)
        if flat is None:
            self.leave_out('flat captures')
            self.leave_out('dumps')
        else:
            plain = in_version(flat, 3 if test.version == 3 else 1)
            if plain is None:
                self.leave_out('flat captures')
            else:
                self.put('flat', test, '.capture', plain)
            stream = Stream(io.BytesIO(flat), test.full_name)
            about = About(game='CONFORMANCE', all_words=True)
            self.put('dumps', test, '.psxgpu', b''.join(Export(stream, stream.version == 3, about)))
        if self.has_programs:
            executable = self.executable(test)
            if executable is None:
                self.leave_out('programs')
            else:
                self.put('exe', test, '.exe', executable)


    def programs(self, tests: Sequence[Test]) -> int:
        """Writes the programs that hold many tests, and which square is which test. Returns how many no program
        holds."""
        lines = ['\t'.join(programs.COLUMNS)]
        for number, program in enumerate(programs.programs(tests), 1):
            name = 'suite-%d.exe' % number
            self.out.put('programs/' + name, program.executable())
            lines += programs.places(name, program)
        self.out.put('programs/squares.tsv', ('\n'.join(lines) + '\n').encode())
        return sum(not programs.is_held(test) for test in tests)


def found_program(given: Optional[str]) -> Optional[str]:
    """Returns the path of psxgpu_tool, or None if it is not there. Raises ToolError if the one that is given is not."""
    try:
        return player.find(given)
    except ToolError:
        if player.is_named(given):
            raise
        return None


def write(tests: Sequence[Test], path: str, program: Optional[str], has_programs: bool = False) -> List[str]:
    """Writes the files of tests into a folder. Returns a line for each kind of which some are left out."""
    with folder(path, MAKER) as out:
        made = Folder(out, program, has_programs)
        for test in progress.counted(tests, path):
            made.test(test)
        missing = made.programs(tests)
        out.put('expected.tsv', expectations(tests).encode())
    lines = ['%d %s are left out' % (count, kind) for kind, count in made.left_out.items()]
    return lines + (['%d tests are in none of programs/' % missing] if missing else [])
