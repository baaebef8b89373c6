#!/usr/bin/env python3
"""Measures the tools on a long recording, beside the player.

    python3 -m bench.tools [--seconds N] [--jobs N] [--only WORD] [--ours PROGRAM] [CAPTURE]

Repeats CAPTURE (default: the busy second) N times (default: 60, a minute) and runs each tool once on it. The table has
the processor time of the tool and of all that it starts (user and system), the time by the clock, and the most memory
that one of its processes held. `film` is also measured with a program in the place of ffmpeg that only reads. --only
selects the rows that contain a word. Other work on the machine changes the clock most, processor time little.
"""
import argparse
import os
import subprocess
import sys
import tempfile
import time

ROOT = os.path.dirname(os.path.dirname(os.path.abspath(__file__)))

from psxgpu.files import read_capture
from psxgpu.records import HEADS
from bench.run import OURS

END = bytes(4)
# Reads all pictures, writes a file, and is named as ffmpeg is.
READER = '#!/bin/sh\ncat > /dev/null\nfor target; do :; done\necho > "$target"\n'
TOOLS = ('check CAPTURE', 'packets CAPTURE --line', 'packets CAPTURE --name load --line', 'heat CAPTURE OUT.png',
         'textures CAPTURE -o OUT', 'film CAPTURE OUT.mp4', 'film CAPTURE OUT.mp4 --ffmpeg READER',
         'compare CAPTURE CAPTURE')
WITH_JOBS = ('check', 'compare', 'heat', 'textures')


def repeated(path, times):
    """Returns the bytes of a capture whose records come several times."""
    data = read_capture(path)
    if data[:8] not in HEADS.values() or data[-4:] != END:
        sys.exit('%s: not a capture that ends with End' % path)
    return data[:8] + data[8:-4] * times + END


def measured(words, path=None):
    """Runs a program without its output. Returns processor time and clock in seconds, and the most memory of one
    process in MB."""
    begin = time.monotonic()
    with open(path or os.devnull, 'rb') as source, open(os.devnull, 'wb') as out:
        child = subprocess.Popen([sys.executable, '-c', WAITER, *words], stdin=source, stdout=out,
                                 stderr=subprocess.PIPE, cwd=ROOT)
        said = child.communicate()[1].decode().splitlines()
    clock = time.monotonic() - begin
    if child.returncode:
        sys.exit('%s ended with status %d: %s' % (' '.join(words), child.returncode, ' '.join(said)))
    used, most = said[-1].split()
    return float(used), clock, float(most)


# Waits for a program, and says what it and its children used.
WAITER = '''
import resource, subprocess, sys
status = subprocess.run(sys.argv[1:]).returncode
used = resource.getrusage(resource.RUSAGE_CHILDREN)
print(used.ru_utime + used.ru_stime, used.ru_maxrss / 1024, file=sys.stderr)
sys.exit(status)
'''


def rows(program, jobs):
    """Yields the name and the arguments of each row: the player, then the tools."""
    for command in ('vram', 'list', 'report', 'slim', 'frames'):
        yield 'psxgpu_tool ' + command, [program, command]
    for text in TOOLS:
        words = text.split()
        yield 'psxgpu ' + text, [sys.executable, '-m', 'psxgpu', *words, '--player', program,
                                 *(['--jobs', str(jobs)] if words[0] in WITH_JOBS else [])]


def main():
    parser = argparse.ArgumentParser(description=__doc__, formatter_class=argparse.RawDescriptionHelpFormatter)
    parser.add_argument('--seconds', type=int, default=60)
    parser.add_argument('--jobs', type=int, default=1, help='of the tools that have --jobs')
    parser.add_argument('--only', default='')
    parser.add_argument('--ours', help='a built program; none is built then')
    parser.add_argument('capture', nargs='?', default=os.path.join(ROOT, 'bench', 'busy-second.capture.xz'))
    args = parser.parse_args()
    if not args.ours:
        subprocess.run(['make', '-s', OURS], cwd=ROOT, check=True)
    program = os.path.abspath(args.ours or os.path.join(ROOT, OURS))
    with tempfile.TemporaryDirectory() as folder:
        path, reader = os.path.join(folder, 'capture'), os.path.join(folder, 'reader')
        with open(path, 'wb') as file:
            file.write(repeated(args.capture, args.seconds))
        with open(reader, 'w') as file:
            file.write(READER)
        os.chmod(reader, 0o755)
        print('| of %.1f MB | processor, s | clock, s | memory, MB |' % (os.path.getsize(path) / 1e6))
        print('|---|---|---|---|')
        for name, words in rows(program, args.jobs):
            if args.only not in name:
                continue
            names = {'CAPTURE': path, 'READER': reader}
            words = [names.get(word, word.replace('OUT', os.path.join(folder, 'out'))) for word in words]
            player = words[0] == program
            used, clock, most = measured(words, path if player else None)
            print('| %s | %.1f | %.1f | %.0f |' % (name, used, clock, most), flush=True)


if __name__ == '__main__':
    main()
