"""What `psxgpu reduce` writes, and its command line."""
from __future__ import annotations

import io
import subprocess
import sys
from typing import List, Tuple

from tests import support
from psxgpu import capture as c
from psxgpu.output import write_several
from psxgpu.reduce.report import Reduced, files_of, report_lines
from psxgpu.stream import GP0, Stream
from tests.tools.test_reduce import Reducing, scene, sprite


class Written(Reducing):
    def written(self) -> Reduced:
        capture = scene().gp0(sprite(40, (0, 300))).gp0(c.load(0, 300, 16, 1, range(900, 916)))
        found = self.reduce(capture.gp0(sprite(80, (0, 300))), 'cache')
        write_several(files_of(found, self.path('small'), ['ours: a', 'theirs: b']))
        return found

    def test_log_makes_the_capture(self) -> None:
        found = self.written()
        done = support.run_tool('from-log', self.path('small.log'), self.path('again'))
        self.assertEqual((done.returncode, done.stderr), (0, ''))
        words = [word for kind, _, part in Stream(io.BytesIO(self.read('again')), 'again') if kind == GP0
                 for word in part]
        self.assertEqual(words, self.words(found))

    def test_script_makes_the_capture(self) -> None:
        found = self.written()
        subprocess.run([sys.executable, self.path('small.py'), self.path('again')], check=True)
        self.assertEqual(self.read('again'), found.data)
        self.assertIn(b'rectangle(color=', self.read('small.py'))
        self.assertIn(b'clut(x=', self.read('small.py'))

    def test_files(self) -> None:
        found = self.written()
        self.assertEqual(self.read('small.capture'), found.data)
        self.assertEqual(self.read('small.png')[:8], b'\x89PNG\r\n\x1a\n')
        self.assertLessEqual(len(report_lines(found)), 10)


# A player that a signal ends where a line is drawn.
DIES = '''#!/bin/sh
data=$(mktemp) && trap 'rm -f "$data"' EXIT && cat > "$data"
if "$PLAYER" list < "$data" | grep -q ' line '; then kill -SEGV $$; fi
"$PLAYER" vram < "$data"
'''


@support.needs_player
class Command(support.InFolder):
    def reduce(self, *words: str) -> Tuple[int, List[str], str]:
        capture = scene().gp0(c.line([(3, 4), (50, 60)], 0x80FF40), c.fill(0, 0, 0, 16, 1))
        path = self.write('a.capture', capture.bytes())
        done = support.run_tool('reduce', path, '%s vram' % support.PLAYER, *words, cwd=self.folder)
        return done.returncode, done.stdout.splitlines(), done.stderr

    def test_crash(self) -> None:
        """What is left is a line, and the drawing area without which `list` has none."""
        self.write('dies', DIES)
        status, lines, _ = self.reduce('sh dies', '--crash', '-o', 'small')
        self.assertEqual((status, lines[0].endswith('of the flat capture: line'), lines[1], lines[-1]),
                         (1, True, '2 packets, 4 words, 36 bytes', 'their player gives no dump: ended by SIGSEGV'))
        played = subprocess.run([support.PLAYER, 'list'], input=self.read('small.capture'), capture_output=True)
        self.assertEqual([line.split()[1] for line in played.stdout.splitlines()], [b'environment', b'line'])
        self.assertEqual(self.reduce('%s vram' % support.PLAYER, '--crash'), (0, ['no difference'], ''))

    def test_event(self) -> None:
        """The first fill differs, in cells 001Fh; the second one changes nothing."""
        path = self.write('fills.capture', c.Capture().gp0(c.fill(0xF8, 0, 0, 16, 1), c.fill(0, 64, 64, 16, 1)).bytes())
        theirs = '%s vram | tr "\\037" "\\036"' % support.PLAYER
        seen = {}
        for event in '3', '6', '7':
            done = support.run_tool('reduce', path, '%s vram' % support.PLAYER, theirs, '--event', event, cwd=self.folder)
            seen[event] = done.returncode, (done.stderr or done.stdout).splitlines()[0]
        self.assertEqual(seen, {
            '3': (1, path + ', event 3 of the flat capture: fill'),
            '6': (2, 'psxgpu reduce: %s: event 6 of the flat capture, fill: what differs after it differs before it, too'
                     % path),
            '7': (2, 'psxgpu reduce: %s: its flat capture has 6 events' % path)})

    def test_ignore(self) -> None:
        self.assertEqual(self.reduce('%s vram' % support.PLAYER, '--ignore', 'line', '--ignore', 'gouraud'),
                         (0, ['no difference'], ''))
        status, _, error = self.reduce('%s vram' % support.PLAYER, '--ignore', 'lines')
        self.assertEqual(status, 2)
        self.assertIn("invalid choice: 'lines' (choose from", error)
