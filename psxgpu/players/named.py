"""How a user names a player, and one run of it.

A player is a shell command that reads a capture on standard input. In it, the word `vram` is the place of the mode:
`psxgpu_tool vram` becomes `psxgpu_tool play` for a tool that needs words. To a command without that word, the mode is
added at its end. So a command that takes no mode has the word in a comment: `my_player # vram`.

    player = player_of('psxgpu_tool vram')
    done = player.run('vram', data)         # data: the bytes of a capture
    dump = dump_of(done)                    # None if it wrote no dump

If the command is this project's own program and the library is there, it runs in this process.
"""
from __future__ import annotations

import contextlib
import io
import os
import re
import select
import shlex
import shutil
import signal
import subprocess
import time
from typing import IO, List, NamedTuple, Optional, Tuple

from psxgpu.command import ToolError
from psxgpu.errors import counted
from psxgpu.vram import WIDTH
from psxgpu.machine import MODES, play
from psxgpu.machine.library import Missing, OutOfMemory, Refused, library
from psxgpu.players import by_library, player as program
from psxgpu.stopping import end, scratch, session

OWN = 'psxgpu_tool'
WORD = re.compile(r'(?<!\S)vram(?!\S)')
SHELL = set('|&;<>()$`*?[]#~{}!\n')       # a command with one of these needs a shell
SAID = 60                                   # characters of an error that a message repeats
MOST_READ, FEW, PAUSE = 1 << 20, 4096, 0.001    # bytes that are read at once, those after which more is waited for; s
PREFIX = 'psxgpu: '                         # of each error of our own program


class Done(NamedTuple):
    """The end of a run. `status` is None if its time ran out, and negative if a signal ended it."""
    status: Optional[int]
    out: bytes
    err: bytes


class Player:
    """Base of all players: `text` is its name in messages."""
    text = 'a player'
    seconds: Optional[float] = None         # for each run, unless it is given other seconds

    def run(self, mode: str, data: bytes, seconds: Optional[float] = None) -> Done:
        """Runs the player on the capture `data`. Ends it after `seconds`, if they are given."""
        raise NotImplementedError


def with_mode(command: str, mode: str) -> str:
    """Returns the shell command for a mode: in the place of its last word `vram`, else at its end."""
    places = list(WORD.finditer(command))
    if places:
        return command[:places[-1].start()] + mode + command[places[-1].end():]
    return '%s %s' % (command, mode)


def arguments_of(command: str) -> List[str]:
    """Returns the command as arguments of a process: its own words, or those of a shell if it needs one."""
    if not SHELL & set(command):
        try:
            words = shlex.split(command)
        except ValueError:
            raise ToolError('%s: a quote has no end' % command) from None
        if words and '=' not in words[0]:
            return words
    return ['sh', '-c', command]


def output_of(child: "subprocess.Popen[bytes]", seconds: Optional[float]) -> Optional[bytes]:
    """Returns what a process writes until it ends; None if that takes longer than `seconds`, if they are given. After a
    few bytes, waits for more before it reads on: a player may write word by word."""
    last = None if seconds is None else time.monotonic() + seconds
    out, waiting = [], select.poll()        # type: List[bytes], select.poll
    with child.stdout or io.BytesIO() as pipe:
        waiting.register(pipe, select.POLLIN)
        while waiting.poll(None if last is None else max(0, 1000 * (last - time.monotonic()))):
            out.append(os.read(pipe.fileno(), MOST_READ))
            if not out[-1]:
                with contextlib.suppress(subprocess.TimeoutExpired):
                    child.wait(None if last is None else max(0, last - time.monotonic()))
                    return b''.join(out)
                break
            if len(out[-1]) < FEW:
                time.sleep(PAUSE)
    return None


class CommandPlayer(Player):
    """A player that is a process of its own in each run."""

    def __init__(self, command: str, seconds: Optional[float] = None) -> None:
        # A path is taken as it is, spaces and all.
        is_path = os.path.isfile(command) and os.access(command, os.X_OK)
        self.text, self.command, self.seconds = command, shlex.quote(command) if is_path else command, seconds

    def arguments(self, mode: str) -> List[str]:
        """Returns the arguments of its process."""
        return arguments_of(with_mode(self.command, mode))

    def program(self) -> Optional[str]:
        """Returns the path of the program that it starts, which may be a shell; None if there is no such program."""
        words = self.arguments('vram')
        return shutil.which(words[0]) if words else None

    def run(self, mode: str, data: bytes, seconds: Optional[float] = None) -> Done:
        words = self.arguments(mode)
        with scratch() as file, scratch() as err:       # two files, so that one pipe alone is read
            file.write(data)
            file.seek(0)
            status, out = self.played(words, file, err, self.seconds if seconds is None else seconds)
            err.seek(0)
            return Done(None, b'', b'') if out is None else Done(status, out, err.read())

    @staticmethod
    def played(words: List[str], file: IO[bytes], err: IO[bytes],
               seconds: Optional[float]) -> Tuple[int, Optional[bytes]]:
        """Runs a process on a file. Returns its status and what it wrote, None if its time ran out."""
        try:
            with session(words, stdin=file, stdout=subprocess.PIPE, stderr=err) as child:
                out = output_of(child, seconds)
                if out is None:
                    end(child)
        except OSError as error:
            raise ToolError('%s: %s' % (words[0], error.strerror)) from error
        return child.returncode, out


class LibraryPlayer(Player):
    """This project's own program, played in this process by libpsxgpu."""

    def __init__(self, command: str) -> None:
        self.text = command

    def run(self, mode: str, data: bytes, seconds: Optional[float] = None) -> Done:
        try:
            return Done(0, play(data, mode), b'')
        except Refused as bad:
            return Done(2, bad.output, str(bad).encode())
        except OutOfMemory as bad:
            return Done(5, b'', str(bad).encode())


def is_own(words: List[str]) -> bool:
    """Whether a command runs this project's own program: by its name alone, or by the path that `find` returns."""
    if len(words) != 2 or words[1] not in MODES:
        return False
    if words[0] == OWN:
        return True
    if os.path.basename(words[0]) not in (OWN, os.path.basename(by_library.__file__)):
        return False
    try:
        return os.path.samefile(words[0], program.find())
    except (OSError, ToolError):
        return False


def player_of(command: str, seconds: Optional[float] = None) -> Player:
    """Returns the player that a command names. `seconds`: for each run."""
    if not command.strip():
        raise ToolError('a player without a name')
    found = CommandPlayer(command, seconds)
    if is_own(found.arguments('vram')):
        try:
            if library().play:
                return LibraryPlayer(command)
        except Missing:
            pass
    return found


def dump_of(done: Done) -> Optional[bytes]:
    """Returns the dump that a run wrote, or None."""
    return None if done.status or done.status is None or not done.out or len(done.out) % (2 * WIDTH) else done.out


def ending(done: Done) -> str:
    """Returns how a run ended, in a few words: `status 1, usage: ..`."""
    if done.status is None:
        return 'no end in time'
    if done.status < 0:
        return 'ended by %s' % signal.Signals(-done.status).name
    line = said_last(done.err)
    if not line:
        return 'status %d, %s' % (done.status, counted(len(done.out), 'byte'))
    return 'status %d, %s' % (done.status, line if len(line) <= SAID else line[:SAID] + '..')


def said_last(err: bytes) -> str:
    """Returns the line of standard error that says why a run failed: the last one, of our own program the first."""
    lines = err.decode(errors='replace').strip().splitlines()
    own = [line[len(PREFIX):] for line in lines if line.startswith(PREFIX)]
    return own[0] if own else lines[-1].strip() if lines else ''


def no_dump(player: Player, done: Done) -> ToolError:
    """Returns the error of a run that wrote no dump."""
    hint = ': a player reads the capture on standard input, as from < FILE' if player.text.split()[-1:] == ['-'] else ''
    return ToolError('%s: no dump (%s)%s' % (player.text, ending(done), hint))


def expect_dump(player: Player, data: bytes, seconds: Optional[float] = None) -> bytes:
    """Returns the dump of a capture. Raises ToolError if there is none."""
    done = player.run('vram', data, seconds)
    dump = dump_of(done)
    if dump is None:
        raise no_dump(player, done)
    return dump
