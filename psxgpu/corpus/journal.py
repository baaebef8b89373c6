"""Plays the captures of a folder on all processors, and keeps what is done in a file, so that a run can be resumed."""
import concurrent.futures
import contextlib
import os
import sys
import time
from typing import IO, Dict, Generator, Optional, Sequence, Set

from psxgpu.command import ToolError, reason_of
from psxgpu.corpus.captures import Capture
from psxgpu.corpus.sums import Row, Sums, as_bytes, read_sums, write_text
from psxgpu.corpus.play import Player, size_and_sum
from psxgpu.output import appending, remove
from psxgpu.stopping import Stopped

WEIGHT = 20000          # what starting a player costs, in bytes of a capture
AHEAD = 4               # captures that wait, for each one that is played
QUIET = 30              # seconds between two lines where progress is no terminal


class Progress:
    """A bar on a terminal, elsewhere a line from time to time."""

    def __init__(self, captures: Sequence[Capture], rows: Dict[str, Row], file: Optional[IO[str]] = None) -> None:
        self.file = file or sys.stderr
        self.is_terminal = self.file.isatty()
        self.count, self.done, self.odd = len(captures), len(rows), 0
        self.left = {it.name: it.size + WEIGHT for it in captures if it.name not in rows}
        self.todo = self.whole = sum(self.left.values())
        self.start = self.told = time.monotonic()

    def row(self, row: Row) -> None:
        """Takes a row that was played."""
        self.done += 1
        self.odd += row.end != 'played'
        self.whole -= self.left.pop(row.name)
        now = time.monotonic()
        if now - self.told > (0.1 if self.is_terminal else QUIET) or self.is_terminal and self.done == self.count:
            self.told = now
            self.tell(now - self.start)

    def tell(self, seconds: float) -> None:
        """Writes how far it is after so many seconds."""
        left = seconds * self.whole / max(1, self.todo - self.whole)
        text = '%d of %d, %d not played, %d:%02d left' % (self.done, self.count, self.odd, left // 60, left % 60)
        if self.is_terminal:
            full = 30 * self.done // self.count
            end = '\n' if self.done == self.count else ''
            text = '\r[%s%s] %s ' % ('#' * full, ' ' * (30 - full), text)
            self.file.write(text + end)
        else:
            self.file.write(text + '\n')
        self.file.flush()


class Journal:
    """The file to which each row is added as soon as it is known. What it has already stays, and so do rows that were
    played elsewhere, where the player and the captures are those of then."""

    def __init__(self, path: str, player: Player, captures: Sequence[Capture], elsewhere: Optional[str] = None) -> None:
        self.path = path
        self.sums = Sums(player.identity(), player.gives)
        if elsewhere:
            kept = read_sums(elsewhere)
            if (kept.player, kept.gives) != (self.sums.player, self.sums.gives):
                raise ToolError('%s: played by %s for %s; here is %s for %s'
                              % (elsewhere, kept.player, ' '.join(kept.gives), self.sums.player,
                                 ' '.join(player.gives)))
            self.keep(kept, captures)
        if os.path.exists(path):
            self.keep(read_sums(path, is_whole=False), captures)
        write_text(path, self.sums.text())

    def keep(self, kept: Sums, captures: Sequence[Capture]) -> None:
        """Keeps the rows of an earlier run of the same player on the same captures."""
        if (kept.player, kept.gives) == (self.sums.player, self.sums.gives):
            for it in captures:
                row = kept.rows.get(it.name)
                if row and size_and_sum(it.path) == (row.size, row.sum):
                    self.sums.rows[it.name] = row

    def add(self, row: Row) -> None:
        """Adds a row to the file."""
        with appending(self.path) as file:
            file.write(as_bytes(row.block()))
        self.sums.rows[row.name] = row


def play_all(player: Player, captures: Sequence[Capture], jobs: int) -> Generator[Row, None, None]:
    """Plays captures, several at a time. Returns each row when it is known."""
    waiting = iter(captures)
    with concurrent.futures.ThreadPoolExecutor(jobs) as pool:
        running: Set["concurrent.futures.Future[Row]"] = set()
        try:
            while True:
                for capture in waiting:
                    running.add(pool.submit(player.row, capture))
                    if len(running) >= AHEAD * jobs:
                        break
                if not running:
                    return
                ended, running = concurrent.futures.wait(running, return_when=concurrent.futures.FIRST_COMPLETED)
                for it in ended:
                    yield it.result()
        finally:
            for it in running:
                it.cancel()


class Nothing(ToolError):
    """The player played no capture."""


def expect_played(rows: Dict[str, Row]) -> None:
    """Raises Nothing if the player wrote nothing for any capture: then there is nothing to compare."""
    if rows and all(row.is_empty() for row in rows.values()):
        name = min(rows)
        raise Nothing('the player plays no capture: %s: %s' % (name, rows[name].end))


def play_into(path: str, player: Player, captures: Sequence[Capture], jobs: int,
              elsewhere: Optional[str] = None) -> Sums:
    """Plays what the file beside `path` does not have yet, and adds it there; then the file is `path`. Returns the
    sums."""
    journal = Journal(path + '.part', player, captures, elsewhere)
    rows = journal.sums.rows
    if rows:
        print('%d of %d captures were played before' % (len(rows), len(captures)), file=sys.stderr)
    progress = Progress(captures, rows)
    todo = [it for it in captures if it.name not in rows]
    try:
        with contextlib.closing(play_all(player, todo, jobs)) as played:
            for row in played:
                journal.add(row)
                progress.row(row)
        expect_played(rows)
        write_text(path, journal.sums.text())
        remove(journal.path)
    except Nothing:
        remove(journal.path)
        raise
    except (OSError, Stopped) as error:
        text = '%s; %d of %d captures are kept in %s: run it again to continue' % (
            reason_of(error) if isinstance(error, OSError) else error, len(rows), len(captures), journal.path)
        raise (ToolError(text) if isinstance(error, OSError) else Stopped(error.number, text)) from error
    return journal.sums
