"""One run of a player: how it ended, and what it wrote."""
import os
import signal
import subprocess
import tempfile
import threading
from typing import IO, List, cast

from psxgpu.command import named
from psxgpu.stopping import kill, session

PIECE = 1 << 16
HELD = 1 << 20                  # what is read of a player before a file takes it


class Run:
    """One run of a player: how it ended (`end`), and what it wrote, as a file (`out`). To be used with `with`."""

    def __init__(self, words: List[str], source: IO[bytes], limit: float) -> None:
        self.out: IO[bytes] = tempfile.SpooledTemporaryFile(HELD)   # pylint: disable=consider-using-with
        with tempfile.TemporaryFile() as err:
            with session(words, stdin=source, stdout=subprocess.PIPE, stderr=err) as self.child:
                self.is_late = False
                clock = threading.Timer(limit, self.stop)
                clock.start()
                out = cast(IO[bytes], self.child.stdout)
                try:
                    self.take(out)
                finally:
                    clock.cancel()
                    out.close()
                status = self.child.wait()
            err.seek(0)
            error = err.read(4096).decode('utf-8', 'replace')
        self.end = 'hangs %g' % limit if self.is_late else ending(status, error)

    def stop(self) -> None:
        """Ends a player that takes too long."""
        self.is_late = True
        kill(self.child)

    def take(self, pipe: IO[bytes]) -> None:
        """Reads what the player writes up to its end."""
        try:
            for piece in iter(lambda: os.read(pipe.fileno(), PIECE), b''):
                self.out.write(piece)
            self.out.seek(0)
        except OSError as error:
            raise named(error, tempfile.gettempdir()) from None

    def __enter__(self) -> 'Run':
        return self

    def __exit__(self, *_: object) -> None:
        self.out.close()


def ending(status: int, error: str) -> str:
    """Returns how a player ended, in words of a file of sums. The last line of its standard error says why."""
    if status == 0:
        return 'played'
    if status < 0:
        return 'crashes ' + signal.Signals(-status).name
    line = ' '.join(error.strip().split('\n')[-1].split())
    return '%s %d %s' % ('refused' if status == 2 else 'fails', status, line or 'without a message')
