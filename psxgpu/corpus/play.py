"""Plays one capture by a player, and takes the sums of what it writes."""
import hashlib
import os
import re
import tempfile
import time
from typing import IO, Iterable, List, Optional, Sequence, Tuple

from psxgpu.command import ToolError
from psxgpu.corpus.captures import Capture
from psxgpu.corpus.one_run import PIECE, Run
from psxgpu.corpus.sums import Frame, Row
from psxgpu.corpus.scan import reads_before
from psxgpu.files import plain
from psxgpu.packing import Damaged
from psxgpu.players.named import CommandPlayer, dump_of
from psxgpu.players.trial_run import try_player

LINE, STATUS = 9, 16            # bytes of a line of `play`: eight digits and the end of the line; of its last line
GIVES = ('frames', 'marks', 'vram', 'words')
FRAMES = ('frames', 'marks')    # of which one is asked for
EMPTY = b'PSXGPUC1' + bytes(4)  # a capture without an event
FRAME = re.compile(rb'(\d{1,20}) (\d{1,5}) (\d{1,5}) ([0-9a-f]{64})\n')
MEMORY = re.compile(rb'vram ([0-9a-f]{64})\n')
OUTSIDE = ('crashes SIGKILL', 'crashes SIGTERM')


class Player:
    """A shell command, in which the word `vram` is the place of the mode; else the mode is added at its end."""

    def __init__(self, command: str, limit: float = 60, gives: Sequence[str] = ('vram',)) -> None:
        self.command = CommandPlayer(command)
        self.program = self.command.program()
        if self.program is None:
            raise ToolError('%s: there is no such player' % command)
        self.limit = limit
        self.has_sums = self.answer('sums') != ''
        self.gives = tuple(it for it in GIVES if it in gives and (self.has_sums or it not in FRAMES))
        self.sums = 'sums marks' if 'marks' in gives else 'sums'

    def run(self, word: str, source: IO[bytes]) -> Run:
        """Runs the player on a capture."""
        return Run(self.command.arguments(word), source, self.limit)

    def answer(self, word: str) -> str:
        """Returns the first line that it writes for a capture without events; nothing if it does not play that."""
        with tempfile.TemporaryFile() as source:
            source.write(EMPTY)
            source.seek(0)
            with self.run(word, source) as run:
                return run.out.readline().decode('utf-8', 'replace').strip() if run.end == 'played' else ''

    def ask_first(self) -> None:
        """Raises ToolError if it writes dumps, and these do not start as zeros, are not whole or not always the same."""
        if self.gives != ('words',) and dump_of(self.command.run('vram', EMPTY, self.limit)):
            try_player(self.command, seconds=self.limit)

    def identity(self) -> str:
        """Returns its version, and a sum of the program's file, so that what two builds write is not mixed."""
        program = self.program or ''
        with open(program, 'rb') as file:
            return '%s %s' % (self.answer('--version') or os.path.basename(program), sum_of(file)[:16])

    def row(self, capture: Capture) -> Row:
        """Returns the row of a capture. One whose player was killed from outside is played once more."""
        start = time.monotonic()
        row = self.played(capture)
        if row.end in OUTSIDE:
            row = self.played(capture)
        row.seconds = time.monotonic() - start
        return row

    def played(self, capture: Capture) -> Row:
        """Plays a capture. Returns its row. The player gets it unpacked, and a dump as a capture. One that is damaged
        is refused without it."""
        row = Row(capture.name, *size_and_sum(capture.path))
        try:
            with plain(capture.path, capture.name) as path, open(path, 'rb') as source:
                row.end = self.take(row, source, path)
        except Damaged as fault:
            row.end = 'refused 2 %s' % fault
        return row

    def take(self, row: Row, source: IO[bytes], path: str) -> str:
        """Adds all that is asked for. Returns how the player ended: the first run that did not end well, if any."""
        ends = []
        if self.gives != ('words',):
            ends.append(self.take_pictures(row, source))
        if 'words' in self.gives and (not ends or not ends[0].startswith(('hangs', 'crashes'))):
            ends.append(self.take_words(row, source, path))
        return next((end for end in ends if end != 'played'), 'played')

    def take_pictures(self, row: Row, source: IO[bytes]) -> str:
        """Adds the sums of pictures and of video memory. Returns how the player ended."""
        source.seek(0)
        with self.run(self.sums if self.has_sums else 'vram', source) as run:
            if self.has_sums:
                self.read_sums(row, run.out)
            elif run.end == 'played':
                row.vram = sum_of(run.out)
            return run.end

    def read_sums(self, row: Row, lines: Iterable[bytes]) -> None:
        """Adds the lines that `sums` writes."""
        for line in lines:
            frame, memory = FRAME.fullmatch(line), MEMORY.fullmatch(line)
            if frame and set(FRAMES) & set(self.gives):
                row.frames.append(Frame(int(frame[1]), int(frame[2]), int(frame[3]), frame[4].decode()))
            elif memory and 'vram' in self.gives:
                row.vram = memory[1].decode()

    @staticmethod
    def ends_of_frames(row: Row, path: str) -> List[int]:
        """Returns how many bytes `play` has written when each frame is shown."""
        try:
            return [LINE * count for count in reads_before(path, [frame.event for frame in row.frames])]
        except ValueError:      # the player takes for a capture what is none
            return [0] * len(row.frames)

    def take_words(self, row: Row, source: IO[bytes], path: str) -> str:
        """Adds the sum of what `play` writes, and its sum up to each frame. Returns how the player ended."""
        source.seek(0)
        with self.run('play', source) as run:
            size = run.out.seek(0, os.SEEK_END)
            run.out.seek(0)
            ends = self.ends_of_frames(row, path) if size not in (0, STATUS) else [0] * len(row.frames)
            total, lines = hashlib.sha256(), 0
            for frame, end in zip(row.frames, ends):
                lines += feed(total, run.out, end - run.out.tell())
                frame.words = total.hexdigest()[:16] if end else '-'
            lines += feed(total, run.out)
            row.words = lines, total.hexdigest()
            return run.end


def feed(total: "hashlib._Hash", file: IO[bytes], count: Optional[int] = None) -> int:
    """Adds bytes of a file to a sum. Returns the number of their lines."""
    lines = 0
    while count is None or count > 0:
        piece = file.read(PIECE if count is None else min(PIECE, count))
        if not piece:
            break
        total.update(piece)
        lines += piece.count(b'\n')
        count = None if count is None else count - len(piece)
    return lines


def sum_of(file: IO[bytes]) -> str:
    """Returns the SHA-256 of the rest of a file."""
    total = hashlib.sha256()
    feed(total, file)
    return total.hexdigest()


def size_and_sum(path: str) -> Tuple[int, str]:
    """Returns the bytes of a file and their SHA-256."""
    with open(path, 'rb') as file:
        total = sum_of(file)
        return file.tell(), total
