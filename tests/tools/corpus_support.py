"""What the tests of `corpus` share: a small player, captures for it, and how the command is run."""
import os
import subprocess
import sys

from tests import support
from psxgpu import capture as c

# A player of fills, three words each, and of reads, which show how many fills came before. With --wrong it draws
# nothing from the second fill on.
PLAYER = '''#!%s
import hashlib, struct, sys
from psxgpu.capture import events, records
wrong, marks, word = sys.argv[1] == '--wrong', sys.argv[-1] == 'marks', sys.argv[-1]
if marks:
    word = 'sums'
if word == '--version':
    sys.exit(print('small 1'))
memory, taken, fills, shown = bytearray(1 << 20), [], 0, []
version, found = records(sys.stdin.buffer.read())
sum_of = lambda: hashlib.sha256(memory).hexdigest()
for event, (kind, _, words) in enumerate(events(found), 1):
    if kind == 2:
        taken.append(words[0])
    if len(taken) == 3:
        fills += 1
        color, place, size = taken
        at = 2048 * (place >> 16) + 2 * (place & 1023)
        if not (wrong and fills > 1):
            memory[at:at + 2 * (size & 1023)] = struct.pack('<H', color & 0x7FFF) * (size & 1023)
        if word == 'list':
            print(event, 'fill', '%%08x' %% color, '-')
        taken = []
    if kind in (4, 5) and word == 'play':
        print('%%08x' %% fills)
    if kind == 3 and words[0] >> 24 == (0x3F if marks else 5) and word == 'sums':
        print(event, 320, 240, sum_of())
if word == 'play':
    print('status 14802000')
if word == 'sums':
    print('vram', sum_of())
if word == 'vram':
    sys.stdout.buffer.write(memory)
''' % sys.executable

# A player whose captures are words, by which it hangs, crashes, is killed once, or refuses them.
MOODY = '''#!/bin/sh
read -r word
case $word in
hang) sleep 100 ;;
crash) kill -SEGV $$ ;;
killed) [ -e killed ] || { : > killed; kill -KILL $$; } ;;
no) echo 'moody: no' >&2; exit 2 ;;
esac
case $1 in
sums) echo vram %s ;;
play) echo status 14802000 ;;
esac
''' % (64 * '0')


def film(fills=3, end=(0x05000000,)):
    """A frame for each fill, and a read before each frame."""
    capture = c.Capture()
    for k in range(fills):
        capture.gp0(c.fill(0x1F << k, 16 * k, 8, 16, 1)).read().gp1(end)
    return capture


class Corpus(support.InFolder):
    """A folder `in` for captures, and the players as `small` and `moody`."""

    def setUp(self):
        super().setUp()
        os.makedirs(self.path('in/deep'))
        os.chmod(self.write('small', PLAYER), 0o755)
        os.chmod(self.write('moody', MOODY), 0o755)

    def text(self, name):
        return self.read(name).decode()

    def save(self, name):
        film().save(self.path(name))

    def two(self):
        self.save('in/a.capture')
        self.save('in/deep/b.capture')

    def corpus(self, *words, cwd='.', **more):
        return subprocess.run([sys.executable, '-m', 'psxgpu', 'corpus', *words], cwd=self.path(cwd),
                              stdin=subprocess.DEVNULL, stdout=subprocess.PIPE, stderr=subprocess.PIPE, text=True,
                              timeout=900, **more)

    def expect(self, status, out, err, *words, **more):
        done = self.corpus(*words, **more)
        self.assertEqual((done.returncode, done.stdout), (status, out), done.stderr)
        self.assertRegex(done.stderr, err or '^')
        self.assertNotIn('Traceback', done.stderr)

    def record(self):
        self.expect(0, '2 captures: 2 played\n', '', 'record', 'in', '--golden', 'golden', '--player', './small')

    def check(self, *words):
        return self.corpus('check', 'in', '--golden', 'golden', '--player', './small', *words)
