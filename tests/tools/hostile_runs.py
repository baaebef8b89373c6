"""Runs the tools with random arguments, names, files and interrupts, and looks for tracebacks and for lost files.

    python3 -m tests.tools.hostile_runs [RUNS] [SEED]

PLAYER names psxgpu_tool. Each run gets files of its own. Status: 0 nothing is wrong, 1 something is.
"""
import argparse
import gzip
import os
import random
import shutil
import signal
import subprocess
import sys
import tempfile
import time

from psxgpu import capture as c
from psxgpu.__main__ import TOOLS, module_of
from psxgpu.command import parser_of
from tests import support

SECONDS = 600       # until a run counts as one that does not end: the whole suite on a busy machine takes minutes
NAMES = (b'a.capture', b'-dash.capture', b'\xff\xfe.capture', b'a b.capture', b"q'uote.capture", b'new\nline.capture',
         b'c.gz', 'é.capture'.encode(), b'a.log', b'a.bin', b'cut', b'bad', b'empty', b'folder', b'link', b'none', b'-',
         b'/dev/null', b'')
OUTPUTS = (*NAMES, b'out', b'out.png', b'out.gz', b'out.zip', b'folder/out', b'none/out', b'.', b'/dev/full',
           b'/dev/stdout')
PLAYERS = ('@', '@ vram', 'tr "\\140" "\\142" | @', 'false', 'kill -9 $$', 'cat', 'sleep 1', 'none', '', "a 'quote",
           'head -c 1048576 /dev/zero #', 'cat > /dev/null; head -c 1048576 /dev/urandom #')


def files():
    """The files of a run, by name."""
    capture = c.Capture().gp1(0x03000000, 0x05000000).gp0(c.drawing_area(0, 0, 1023, 511), c.rectangle(0xFF, 4, 4, 8, 8))
    data = capture.gp1(0x05000001).stat().read(2).bytes()
    whole = {name: data for name in NAMES if name.endswith(b'.capture')}
    return {**whole, b'c.gz': gzip.compress(data), b'a.log': b'gp0 0\nstat\n', b'a.bin': bytes(4096), b'cut': data[:-7],
            b'bad': data[:-4] + b'\0\0\0\x63' + data[8:], b'empty': b'', b'folder/user.txt': b'mine',
            b'folder/index.html': b'mine', b'folder/one.capture': data}


def word_for(r, action):
    """A word for an argument."""
    try:
        kind = action.type('2') if callable(action.type) else ''
    except argparse.ArgumentTypeError:
        return r.choice((b'1-1', b'2-1', b'x'))
    name = type(kind).__name__
    if action.choices and r.random() < 0.8:
        return os.fsencode(str(r.choice(list(action.choices))))
    if isinstance(kind, int):
        return os.fsencode(r.choice(('0', '1', '2', '99', '-1', 'x', '')))
    if name == 'Command':
        return os.fsencode(r.choice(PLAYERS).replace('@', support.PLAYER))
    return r.choice(NAMES if name == 'Source' else OUTPUTS)


def command_line(r):
    """Random arguments of a random tool."""
    tool = r.choice(TOOLS)
    words, positionals = [], []
    for action in parser_of(module_of(tool), tool)._actions:
        count = 1 if action.nargs not in ('*', '+') and not isinstance(action.nargs, int) else r.choice((1, 1, 2, 4))
        values = [] if action.nargs == 0 else [word_for(r, action) for _ in range(count)]
        if action.option_strings and r.random() < (0.25 if action.dest not in ('player', 'ffmpeg', 'help') else 0.05):
            words += [os.fsencode(r.choice(action.option_strings)), *values]
        elif not action.option_strings and r.random() < 0.9:
            positionals += values
    if tool == 'agree' and len(positionals) > 2:
        positionals[2:] = [b'1', b'fills']
    if r.random() < 0.5:
        words = words + [b'--'] * (r.random() < 0.5) + positionals
    else:
        words = positionals + words
    return [os.fsencode(tool), *words]


def kept(folder, before):
    """The names of files that are lost: they are gone, or do not begin with what they had."""
    lost = []
    for name, data in before.items():
        try:
            with open(os.path.join(os.fsencode(folder), name), 'rb') as file:
                if file.read() != data:
                    lost.append(name)
        except OSError:
            lost.append(name)
    return lost


def is_wrong(said, number):
    """Returns whether a tool wrote a traceback or a warning. A signal that comes before Python has read the first line of
    the package is Python's own matter."""
    return b'Warning' in said or b'Traceback' in said and (not number or b'psxgpu' in said)


def run(r, folder):
    """Does one run. Returns what is wrong, or an empty text."""
    before = files()
    os.mkdir(os.path.join(folder, 'folder'))
    for name, data in before.items():
        with open(os.path.join(os.fsencode(folder), name), 'wb') as file:
            file.write(data)
    os.symlink('a.capture', os.path.join(folder, 'link'))
    words = command_line(r)
    child = subprocess.Popen([sys.executable, '-S', '-W', 'error', '-X', 'dev', '-m', 'psxgpu', *words], cwd=folder,
                             stdin=subprocess.DEVNULL, stdout=subprocess.PIPE, stderr=subprocess.PIPE)
    number = 0
    if r.random() < 0.3:
        number = r.choice((signal.SIGINT, signal.SIGTERM))
        time.sleep(r.uniform(0.4, 3))
        child.send_signal(number)
    try:
        _, said = child.communicate(timeout=SECONDS)
    except subprocess.TimeoutExpired:
        child.kill()
        return 'does not end: %r' % words
    lost = kept(folder, before)
    # mend without an output changes the recording, and join may append to a capture. A file that is named only once may be
    # named as an output.
    named = [b'a.capture' if word == b'link' else word for word in words]
    lost = [name for name in lost if words[0] not in (b'mend', b'join') and named.count(name) != 1]
    allowed = (0, 1, 2, 128 + number, -number) if number else (0, 1, 2)
    if is_wrong(said, number) or lost or child.returncode not in allowed:
        return '%r\n    status %d, lost %r\n    %s' % (words, child.returncode, lost, said.decode(errors='replace')[-1500:])
    return ''


def main():
    runs, seed = (int(sys.argv[k]) if len(sys.argv) > k else n for k, n in ((1, 500), (2, 1)))
    wrong = 0
    for k in range(runs):
        folder = tempfile.mkdtemp(prefix='hostile')
        try:
            text = run(random.Random('%d %d' % (seed, k)), folder)
        finally:
            shutil.rmtree(folder)
        if text:
            wrong += 1
            print('run %d: %s' % (k, text), flush=True)
    print('%d runs, %d wrong' % (runs, wrong))
    return 1 if wrong else 0


if __name__ == '__main__':
    sys.exit(main())
