#!/usr/bin/env python3
"""Lets each call of a player's run fail in turn: its growths of memory, its reads and its writes.

    python3 .ci/harness/faults.py PLAYER CAPTURE .. [-- COMMAND ..]

PLAYER is a program, or a command that starts one by an emulator; the environment's CC then names the compiler of its
system. For each capture (or snapshot) and each command (play, if none is given; `cut 3` is one word), the run is tried as it
is, and then once for each growth of memory that is refused, for each read and each write that fails, with reads and
writes of one byte each, and with a signal that interrupts each read and each write three times. What must come: without
memory status 5, nothing read and nothing on standard output, or, where a smaller growth serves as well and is asked
for next, all as it was; where a read fails status 3, where a write fails status 4, and in both cases a part of what is
written otherwise; where standard error fails, the pieces are short or a signal interrupts, the same status and the
same output. The calls are made to fail by .ci/harness/faults.c, which gcc makes a library of that is loaded before the
player. Then the disk is full after some bytes of the output: status 4, with exactly these bytes, and for `list`,
`pixel`, `flat` and `cut` the event is the one at which the next byte is due, by the line that lacks it or by what the
command writes of the first events alone. The last line is `N passed, M failed`. Without a compiler the status is 77.
"""
import os
import resource
import shlex
import shutil
import signal
import subprocess
import sys
import tempfile

from fault_judges import JUDGES, as_it_was, full_disk

HERE = os.path.dirname(os.path.abspath(__file__))
ROOT = os.path.dirname(os.path.dirname(HERE))
SECONDS = 120
KINDS = ('memory', 'read', 'write', 'error')
PLACES = 48
MOST_EVENTS = 400
END = 4


class Run:
    """One run of a player: its status, what it wrote, and how many calls of each kind it made."""

    def __init__(self, library, folder, words, capture, kind='', at=0):
        counts = os.path.join(folder, 'counts')
        env = dict(os.environ, LD_PRELOAD=library, FAULT_COUNTS=counts, FAULT_KIND=kind, FAULT_AT=str(at))
        with open(capture, 'rb') as source:
            done = subprocess.run(words, stdin=source, stdout=subprocess.PIPE, stderr=subprocess.PIPE, env=env,
                                  timeout=SECONDS)
        self.status, self.out, self.err = done.returncode, done.stdout, done.stderr
        with open(counts) as file:
            self.calls = dict(zip(KINDS, map(int, file.read().split())))


class Full:
    """One run of a player on a disk that is full after so many bytes."""

    def __init__(self, folder, words, capture, room):
        out = os.path.join(folder, 'full')

        def bounded():
            signal.signal(signal.SIGXFSZ, signal.SIG_IGN)
            resource.setrlimit(resource.RLIMIT_FSIZE, (room, room))

        with open(capture, 'rb') as source, open(out, 'wb') as file:
            done = subprocess.run(words, stdin=source, stdout=file, stderr=subprocess.PIPE, preexec_fn=bounded,
                                  timeout=SECONDS)
        self.status, self.err = done.returncode, done.stderr
        with open(out, 'rb') as file:
            self.out = file.read()


def ends_of_events(words, capture):
    """How many bytes of the output are due up to each event, by what is written of the first events alone; the End record
    of that is not."""
    ends = []
    for events in range(1, MOST_EVENTS + 1):
        first = subprocess.run([sys.executable, '-m', 'psxgpu', 'first', str(events), capture], capture_output=True,
                               env=dict(os.environ, PYTHONPATH=ROOT))
        if first.returncode:
            return ends
        out = subprocess.run(words, input=first.stdout, capture_output=True, timeout=SECONDS)
        ends.append(max(len(out.stdout) - END, 0) if out.returncode == 0 else 0)
    return ends


def event_of(was, start, command, capture):
    """The event at which a byte is due, by its place; None where the command does not let it be told."""
    words = command.split()
    if words[0] in ('list', 'pixel'):
        return lambda place: int(was.out[was.out.rfind(b'\n', 0, place) + 1:].split()[0])
    if words[0] in ('flat', 'cut') and was.status == 0:
        ends = ends_of_events(start + words, capture)
        return lambda place: sum(end <= place for end in ends) + 1
    return lambda place: None


def rooms(size):
    """Some numbers of bytes below this, all of them where they are few."""
    return sorted({size * k // PLACES for k in range(PLACES)} if size > PLACES else range(size))


def trials(was):
    """What is tried after the run as it is: the kind, the number of the call, and who judges."""
    for kind, judge in JUDGES.items():
        for at in range(1, was.calls[kind] + 1):
            yield kind, at, judge
    yield 'short', 0, as_it_was
    yield 'signal', 0, as_it_was


def tried(library, folder, start, capture, command):
    """How many runs of a command on a capture did what they must, and how many not."""
    words = start + command.split()
    was = Run(library, folder, words, capture)
    passed = failed = 0
    for kind, at, judge in trials(was):
        wrong = judge(was, Run(library, folder, words, capture, kind, at))
        passed, failed = passed + (not wrong), failed + bool(wrong)
        if wrong:
            print('%s, %s: %s %d: %s' % (capture, command, kind, at, wrong))
    due = event_of(was, start, command, capture)
    for room in rooms(len(was.out)):
        wrong = full_disk(was, Full(folder, words, capture, room), room, due(room))
        passed, failed = passed + (not wrong), failed + bool(wrong)
        if wrong:
            print('%s, %s: disk of %d bytes: %s' % (capture, command, room, wrong))
    return passed, failed


def built(folder):
    """The library that lets calls fail; None without a compiler."""
    compiler = os.environ.get('CC', 'gcc')
    if not shutil.which(compiler):
        return None
    library = os.path.join(folder, 'faults.so')
    subprocess.run([compiler, '-O2', '-shared', '-fPIC', '-o', library, os.path.join(HERE, 'faults.c')], check=True)
    return library


def start_of(player):
    """The words that start a player, which is a path or a command."""
    words = [player] if os.path.isfile(player) else shlex.split(player)
    return [shutil.which(words[0]) or os.path.abspath(words[0]), *words[1:]]


def main(player, captures, commands):
    passed = failed = 0
    with tempfile.TemporaryDirectory() as folder:
        library = built(folder)
        if library is None:
            print('skipped: there is no gcc, and CC names no other compiler')
            return 77
        for capture in captures:
            for command in commands:
                good, bad = tried(library, folder, start_of(player), capture, command)
                passed, failed = passed + good, failed + bad
    print('%d passed, %d failed' % (passed, failed))
    return 1 if failed else 0


def words_of(args):
    """The player, the captures and the commands of a command line; None where it is none."""
    cut = args.index('--') if '--' in args else len(args)
    if cut < 2 or not all(os.path.isfile(it) for it in args[1:cut]):
        return None
    return args[0], args[1:cut], args[cut + 1:] or ['play']


if __name__ == '__main__':
    given = words_of(sys.argv[1:])
    if given is None:
        sys.exit(__doc__)
    try:
        sys.exit(main(*given))
    except (OSError, subprocess.SubprocessError) as error:
        sys.exit('faults.py: %s' % error)
