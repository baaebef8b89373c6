"""How a player is named, and what is said of one that is wrong."""
from __future__ import annotations

import os
import unittest
from unittest import mock

from psxgpu.command import ToolError
from psxgpu.players.named import CommandPlayer, Done, arguments_of, dump_of, expect_dump, player_of, with_mode
from psxgpu.players import player as program
from psxgpu.players.trial_run import OURS, trial_captures, try_commands, try_player, try_words
from tests import support
from tests.tools.small_player import SmallPlayer

EMPTY = trial_captures(1)[0]
# A player that writes a dump for the word vram alone, and says how long its capture is in the first cell.
SCRIPT = '''#!/bin/sh
[ "$1" = vram ] || { echo "psxgpu: usage" >&2; exit 1; }
n=$(wc -c); { printf '%06d' $n; cat /dev/zero; } | head -c 1048576
'''


class Names(unittest.TestCase):
    def test_mode(self) -> None:
        for command, want in (
                ('psxgpu_tool vram', 'psxgpu_tool play'), ('psxgpu_tool', 'psxgpu_tool play'),
                ('a vram | b vram -x', 'a vram | b play -x'), ('./vram-player vram', './vram-player play'),
                ('./vram-player', './vram-player play'), ('player # vram', 'player # play')):
            self.assertEqual(with_mode(command, 'play'), want)

    def test_arguments(self) -> None:
        """A command that needs no shell gets none."""
        self.assertEqual(arguments_of("'my player' vram"), ['my player', 'vram'])
        for command in ('a vram | b', 'X=1 a vram', 'a vram > f', '$PLAYER vram'):
            self.assertEqual(arguments_of(command), ['sh', '-c', command])
        with self.assertRaisesRegex(ToolError, 'a quote has no end'):
            arguments_of("a 'b vram")


class Wrong(support.InFolder):
    def player(self) -> str:
        path = self.write('a player', SCRIPT)
        os.chmod(path, 0o755)
        return path

    def test_a_path_with_a_space(self) -> None:
        done = player_of(self.player()).run('vram', EMPTY)
        self.assertEqual((dump_of(done) or b'')[:6], b'000012')

    def test_no_dump(self) -> None:
        for command, want in (('cat #', 'cat #: no dump (status 0, 12 bytes)'),
                              ('kill -9 $$ #', 'kill -9 $$ #: no dump (ended by SIGKILL)'),
                              ('sleep 9; cat #', 'sleep 9; cat #: no dump (no end in time)'),
                              ('echo one >&2; echo two >&2; exit 3 #', 'echo one >&2; echo two >&2; exit 3 #: no dump '
                               '(status 3, two)'),
                              ('false # -', 'false # -: no dump (status 1, 0 bytes): a player reads the capture on '
                               'standard input, as from < FILE'),
                              ('nobody vram', 'nobody: No such file or directory')):
            with self.assertRaises(ToolError) as caught:
                expect_dump(CommandPlayer(command), EMPTY, 1)
            self.assertEqual(str(caught.exception), want)

    def test_output(self) -> None:
        """What a process writes word by word, and one that goes on for too long, after it closed its output or not."""
        for command, want in (('for k in 1 2 3; do echo $k; sleep 0.01; done #', Done(0, b'1\n2\n3\n', b'')),
                              ('exec >&-; sleep 9 #', Done(None, b'', b'')),
                              ('echo 1; sleep 9 #', Done(None, b'', b'')),
                              ('wc -c; echo one >&2; exit 3 #', Done(3, b'12\n', b'one\n'))):
            with self.subTest(command):
                self.assertEqual(CommandPlayer(command).run('play', EMPTY, 0.5), want)

    def test_the_same_dump(self) -> None:
        zeros = CommandPlayer('cat > /dev/null; head -c 1048576 /dev/zero #')
        with self.assertRaisesRegex(ToolError, 'the other player gives the same dump whatever it reads'):
            try_commands(SmallPlayer(), zeros)
        with self.assertRaisesRegex(ToolError, 'our player gives the same dump whatever it reads'):
            try_commands(zeros, SmallPlayer())
        try_commands(SmallPlayer(), SmallPlayer('blend'))

    def test_what_is_asked(self) -> None:
        """A whole dump, zeros at the beginning, the same bytes each time."""
        for command, want in (('cat > /dev/null; head -c 2097152 /dev/zero #', 'writes a dump of 2097152 bytes, not of 1048576'),
                              ('cat > /dev/null; head -c 2048 /dev/zero #', 'writes a dump of 2048 bytes, not of 1048576'),
                              ('cat > /dev/null; { head -c 4 /dev/zero; printf "\\377\\177"; cat /dev/zero; } | '
                               'head -c 1048576 #', r'starts with other cells than 0: \(2, 0\) is 7fff')):
            with self.subTest(command), self.assertRaisesRegex(ToolError, 'the other player ' + want):
                try_commands(SmallPlayer(), CommandPlayer(command))

    def test_each_time_other_bytes(self) -> None:
        moody = CommandPlayer('n=$(wc -c); { [ $n = 12 ] || printf %9d $$; cat /dev/zero; } | head -c 1048576 #')
        with self.assertRaisesRegex(ToolError, 'the player writes other bytes each time, for the same capture'):
            try_player(moody)

    def test_words(self) -> None:
        try_words(SmallPlayer(), OURS)
        for command, want in (('echo 7fff7fff; echo 00000000 #', 'starts with other cells than 0: .0, 0. is 7fff'),
                              ('echo status #', 'writes 0 words of eight digits'), ('false', 'no words .status 1, 0 bytes'),
                              ('echo 00000000; printf "%08d\\n" $$ #', 'writes other bytes each time')):
            with self.subTest(command), self.assertRaisesRegex(ToolError, want):
                try_words(CommandPlayer(command), OURS)

    def test_a_program_that_is_named(self) -> None:
        """It is not replaced by another one."""
        with mock.patch.dict(os.environ, PLAYER='/nonexistent'), self.assertRaisesRegex(
                ToolError, '^PLAYER=/nonexistent: not a program$'):
            program.find()
        with self.assertRaisesRegex(ToolError, '^/nonexistent: not a program$'):
            program.find('/nonexistent')


