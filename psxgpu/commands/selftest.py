"""Plays the captures of this package, and compares every byte of what comes of them with what is stored.

    psxgpu selftest
    psxgpu selftest --player ./psxgpu_tool
    psxgpu selftest --library

It prints one line: how many outputs are the same, the program's version, the system and the processor. Send this line
if you have tried psxgpu_tool on a system that docs/SYSTEMS.md does not name. Without a program on this machine the
library is tried. On a machine without Python, the scripts `selftest.sh` and `selftest.cmd` beside the captures do the
same.

Status: 0 all is the same, 1 something differs, 2 an error.
"""
import argparse
import glob
import os
import platform
import re
import subprocess
from typing import Iterator, List, Optional, Tuple

from psxgpu import __version__
from psxgpu.command import DIFFERENT, SAME, ToolError, read_whole
from psxgpu.machine.library import Missing, library
from psxgpu.players import player
from psxgpu.players.named import CommandPlayer, LibraryPlayer, Player

FOLDER = os.path.join(os.path.dirname(os.path.dirname(os.path.abspath(__file__))), 'selftest')
COMMANDS = ('sums', 'play')
SECONDS = 60


def arguments(parser: argparse.ArgumentParser) -> None:
    """Adds the arguments."""
    player.argument(parser)
    parser.add_argument('--library', action='store_true', help='try libpsxgpu instead of the program')


def version_of(program: str) -> str:
    """Returns the first line of `--version`. Raises ToolError if the program does not run."""
    try:
        done = subprocess.run([program, '--version'], capture_output=True, text=True, timeout=SECONDS)
    except (OSError, subprocess.SubprocessError) as error:
        raise ToolError('%s does not run: %s' % (program, error)) from error
    if done.returncode:
        raise ToolError('%s does not run: %s' % (program, player.failure(done.returncode, done.stderr.encode())))
    return (done.stdout.splitlines() or ['a program without a version'])[0]


def build_of(words: argparse.Namespace) -> Tuple[Player, str]:
    """Returns the player to try and its version. Raises ToolError if there is neither a program nor a library."""
    try:
        program = None if words.library else player.find_program(words.player)
    except ToolError:
        if player.is_named(words.player):
            raise
        program = None
    if program is None:
        try:
            return LibraryPlayer('library'), '%s of psxgpu %s' % (os.path.basename(library().path), __version__)
        except Missing as missing:
            also = '' if words.library else 'no psxgpu_tool, and '
            raise ToolError('%s%s: name a program with --player' % (also, missing)) from None
    return CommandPlayer(program), version_of(program)


def outputs() -> Iterator[Tuple[str, str, bytes]]:
    """Yields the name of each output, the command and the capture. Raises ToolError if the captures are not there."""
    paths = sorted(glob.glob(os.path.join(FOLDER, '*.capture')))
    if not paths:
        raise ToolError('%s: the captures are missing: install psxgpu again' % FOLDER)
    for path in paths:
        for command in COMMANDS:
            yield '%s.%s' % (os.path.splitext(path)[0], command), command, read_whole(path)


def differing(build: Player) -> Tuple[int, List[str]]:
    """Returns the number of outputs, and the names of those that differ."""
    count, wrong = 0, []
    for path, command, data in outputs():
        done, count = build.run(command, data, SECONDS), count + 1
        if (done.status, done.out) != (0, read_whole(path)):
            wrong.append(os.path.basename(path))
    return count, wrong


def processor() -> str:
    """Returns the name of the processor, or its kind if the system does not name it."""
    found: Optional[str] = None
    if os.path.exists('/proc/cpuinfo'):
        with open('/proc/cpuinfo', encoding='utf-8', errors='replace') as file:
            name = re.search(r'(?m)^(?:model name|Model)\s*: (.+)', file.read())
        found = name[1] if name else None
    elif platform.system() == 'Darwin':
        done = subprocess.run(['sysctl', '-n', 'machdep.cpu.brand_string'], capture_output=True, text=True)
        found = done.stdout.strip()
    return found or platform.processor() or platform.machine()


def run(words: argparse.Namespace) -> int:
    """Prints the line. Returns the status."""
    build, version = build_of(words)
    count, wrong = differing(build)
    system = ' '.join((platform.system(), platform.release(), platform.machine()))
    names = ' (different: %s)' % ', '.join(wrong) if wrong else ''
    print('psxgpu selftest: %d of %d outputs are the same%s: %s, %s, %s'
          % (count - len(wrong), count, names, version, system, processor()))
    return DIFFERENT if wrong else SAME
