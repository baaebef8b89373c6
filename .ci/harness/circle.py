#!/usr/bin/env python3
"""Tries the whole circle: a capture becomes a program for the console, an emulator runs it and draws with our machine,
the program finds no difference, and what was recorded of it draws the same again.

    python3 .ci/harness/circle.py LIBRARY         libpsxgpu.a; $PLAYER is psxgpu_tool

The emulator is pcsxr with the recorder and the plugin that draws; if it is not on the machine, the bare processor of
tests/console with the machine as its GPU. Status: 0 all agree, 1 some differ, 2 error, 77 nothing can run here.
"""
import argparse
import glob
import gzip
import io
import lzma
import os
import random
import shutil
import subprocess
import sys
import tempfile
from typing import Iterator, List, Tuple

TOP = os.path.dirname(os.path.dirname(os.path.dirname(os.path.abspath(__file__))))

from psxgpu.capture import Capture
from psxgpu.console import executable
from psxgpu.packets.generated import AREA, CLASSES, background
from psxgpu.players import player
from psxgpu.stream import GP1, HEADS, Stream, encode

REFUSED = 'tall', 'list-loop'           # examples that are no programs: 1024 rows; refused by psxgpu_tool
OTHERS = 'examples/cube.capture.gz', 'examples/ports.capture.gz', 'bench/valley.capture.xz'
RANDOM = 20
GOOD = 'VIDEO MEMORY: 000 OF 128 PARTS DIFFER', 'READS: 000 DIFFER', 'WAITS TOO LONG: 000'
CYCLES = 1 << 34
SKIPPED = 77
Named = Tuple[str, bytes]


def random_captures() -> Iterator[Named]:
    """Packets of all classes on random cells."""
    names = sorted(CLASSES)
    for number in range(RANDOM):
        r = random.Random(number)
        capture = Capture().gp0(background(r), AREA)
        for name in names[number % 4::4]:
            capture.gp0(CLASSES[name](r))
        yield 'random %d' % number, capture.bytes()


def captures() -> Iterator[Named]:
    """What is tried: the examples, the recordings, random captures."""
    for path in sorted(glob.glob(os.path.join(TOP, 'examples', '*.capture'))):
        name = os.path.basename(path)[:-len('.capture')]
        if name not in REFUSED:
            with open(path, 'rb') as file:
                yield name, file.read()
    for path in OTHERS:
        with open(os.path.join(TOP, path), 'rb') as file:
            data = file.read()
        yield os.path.basename(path), gzip.decompress(data) if path.endswith('.gz') else lzma.decompress(data)
    yield from random_captures()


def dump(tool: str, capture: bytes) -> bytes:
    """Returns video memory after a capture."""
    return subprocess.run([tool, 'vram'], input=capture, stdout=subprocess.PIPE, check=True).stdout


def before_the_check(recording: bytes) -> bytes:
    """Returns what was recorded before the program's last reset, with which its check begins."""
    records = list(Stream(io.BytesIO(recording), 'recording'))
    last = max(k for k, (kind, _, words) in enumerate(records) if kind == GP1 and not words[0] >> 24 & 0x3F)
    return HEADS[2] + b''.join(encode(*record) for record in records[:last]) + bytes(4)


class Console:
    """What runs programs. It is built in a folder, with libpsxgpu.a."""

    def __init__(self, folder: str, library: str) -> None:
        raise NotImplementedError

    def run(self, program: str, recording: str, marks: int) -> List[str]:
        """Runs a program, and records it. Returns the lines that it said. `marks`: how often it waits for a blank."""
        raise NotImplementedError


class Pcsxr(Console):
    """pcsxr with our plugin, under `record`."""

    def __init__(self, folder: str, library: str) -> None:
        self.folder = folder
        surroundings = dict(os.environ, PSXGPU_LIBRARY=library)
        subprocess.run([os.path.join(TOP, 'recorder', 'build'), folder], env=surroundings, check=True,
                       stdout=subprocess.DEVNULL, stderr=subprocess.DEVNULL)

    def run(self, program: str, recording: str, marks: int) -> List[str]:
        plugin = os.path.join(self.folder, 'libpsxgpu_draw.so')
        command = [os.path.join(TOP, 'recorder', 'record'), program, recording, str(300 + 4 * marks), '--tty',
                   '--polls', '0', '--built', self.folder, '--plugin', plugin]
        done = subprocess.run(command, stdout=subprocess.PIPE, text=True)
        return done.stdout.splitlines()


class Bare(Console):
    """The bare processor with the machine as its GPU."""

    def __init__(self, folder: str, library: str) -> None:
        self.program = os.path.join(folder, 'processor')
        sources = [os.path.join(TOP, 'tests', 'console', name) for name in ('processor.c', 'gpu.c')]
        subprocess.run(['gcc', '-std=gnu99', '-O2', '-DWITH_MACHINE', '-I', os.path.join(TOP, 'recorder'), '-I',
                        os.path.join(TOP, 'c'), *sources, library, '-o', self.program], check=True)

    def run(self, program: str, recording: str, marks: int) -> List[str]:
        done = subprocess.run([self.program, program, recording, str(CYCLES)], stdout=subprocess.PIPE, text=True)
        return done.stdout.splitlines()


def console_of(folder: str, library: str, is_bare: bool) -> Console:
    """Returns the console: pcsxr if it is here, else the bare processor. Both draw with libpsxgpu.a, `library`."""
    has_pcsxr = shutil.which('pcsxr', path=os.environ.get('PATH', '') + ':/usr/games') and shutil.which('Xvfb')
    kind = Pcsxr if has_pcsxr and not is_bare else Bare
    return kind(folder, os.path.abspath(library))


def difference(tool: str, console: Console, folder: str, capture: bytes, packs: bool) -> str:
    """Returns what differs, or nothing."""
    program, recording = os.path.join(folder, 'a.exe'), os.path.join(folder, 'a.capture')
    with open(program, 'wb') as file:
        file.write(executable(capture, check=True, packs=packs, tool=tool))
    marks = sum(kind == GP1 and words[0] >> 24 & 0x3F == 0x3F
                for kind, _, words in Stream(io.BytesIO(capture), 'capture'))
    said = console.run(program, recording, marks)
    wrong = [good for good in GOOD if not any(line.endswith(good) for line in said)]
    if wrong:
        return 'not said: %s; said: %s' % (wrong[0], ' / '.join(said[-5:]))
    with open(recording, 'rb') as file:
        if dump(tool, before_the_check(file.read())) != dump(tool, capture):
            return 'the recording draws other cells'
    return ''


def main() -> int:
    """Tries all captures. Returns the status."""
    parser = argparse.ArgumentParser(description=(__doc__ or '').split('\n', 1)[0])
    parser.add_argument('library', help='libpsxgpu.a')
    parser.add_argument('--bare', action='store_true', help='the bare processor, even if pcsxr is here')
    parser.add_argument('names', nargs='*', help='of captures; all if left out')
    words = parser.parse_args()
    if not shutil.which('gcc'):
        print('skipped: no gcc on this machine')
        return SKIPPED
    differ = tried = 0
    with tempfile.TemporaryDirectory(prefix='psxgpu') as folder:
        console = console_of(folder, words.library, words.bare)
        for name, capture in captures():
            if words.names and name not in words.names:
                continue
            wrong = difference(player.find(), console, folder, capture, packs=tried % 2 == 1)
            tried, differ = tried + 1, differ + bool(wrong)
            if wrong:
                print('%s: %s' % (name, wrong))
    print('%d captures on %s, %d differ' % (tried, type(console).__name__.lower(), differ))
    return 1 if differ else 0


if __name__ == '__main__':
    sys.exit(main())
