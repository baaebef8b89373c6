"""The command conform: on the plain model, and on models with a planted fault."""
import contextlib
import io
import base64
import json
import re
import xml.etree.ElementTree
from unittest import mock

from tests.support import InFolder, run_tool

from suite_trials.model import Model
from psxgpu import command
from psxgpu.commands import conform
from psxgpu.players.named import Done, Player


def conform_of(player, *words):
    """Runs the command with this player. Returns the status, what it prints, and what it says of errors."""
    out, err = io.StringIO(), io.StringIO()
    with mock.patch.object(conform, 'player_of', lambda *_, **__: player), contextlib.redirect_stdout(out), \
            contextlib.redirect_stderr(err), mock.patch('os.dup2'):
        status = command.main(conform, ['player', *words], 'psxgpu conform')
    return status, out.getvalue(), err.getvalue()


class Fixed(Player):
    """A player with the same answer to all."""

    def __init__(self, done):
        self.done = done

    def run(self, mode, data, seconds=None):
        return self.done


class Conform(InFolder):
    def test_the_model_passes(self):
        status, out, _ = conform_of(Model(), '--strict', '--quiet')
        self.assertEqual(status, 0)
        row = next(line for line in out.splitlines() if line.startswith('| all |')).split('|')
        self.assertEqual((row[2], row[4].strip()), (row[3], ''))

    def test_a_fault_fails_where_psx_spx_decides(self):
        fault = Model(fill_box=lambda m, corner, size: (corner & 0x3FF, corner >> 16, size & 0xFFFF, size >> 16))
        status, out, _ = conform_of(fault, '--only', 'fills/x-rounded-down')
        self.assertEqual(status, 1)
        self.assertTrue(out.startswith(
            'failed  fills/x-rounded-down: X is rounded down to a multiple of 16.\n'
            '        fill 021faf57 0004001f 00020010 | corner (16, 4), size 16 by 2; colour 87 175 31\n'
            '        60 cells, the first at (16, 4): yours 0000 (0 0 0), expected 0eaa (10 21 3)\n| chapter | '), out)

    def test_strict_decides_the_status_of_an_own_rule(self):
        fault = Model(padding=lambda m: 0xFFFF)
        self.assertEqual(conform_of(fault, '--only', 'stores')[0], 0)
        status, out, _ = conform_of(fault, '--only', 'stores', '--strict')
        self.assertEqual(status, 1)
        self.assertIn('differs stores/odd-count: The spare half of the last word of an odd store is 0.\n', out)
        self.assertIn('        word 2 of 2: yours ffff3333, expected 00003333\n', out)

    def test_junit_json_and_page(self):
        fault = Model(dither=lambda m, x, y: 0, padding=lambda m: 0xFFFF, wide=lambda m, channel: 8 * channel)
        paths = [self.path(name) for name in ('out.xml', 'out.json', 'page.html')]
        status, _, _ = conform_of(fault, '--only', 'dither', '--only', 'stores', '--only', 'display/fifteen-bits',
                                  '--junit', paths[0], '--json', paths[1], '--page', paths[2])
        self.assertEqual(status, 1)
        suites = xml.etree.ElementTree.parse(paths[0]).getroot()
        kinds = {(case.get('classname'), case.get('name')): [one.tag for one in case] for case in suites.iter('testcase')}
        self.assertEqual(kinds['dither', 'table'], ['failure'])
        self.assertEqual(kinds['stores', 'odd-count'], ['skipped'])
        self.assertEqual(kinds['dither', 'off'], [])
        with open(paths[1]) as file:
            self.assertEqual(json.load(file)['dither/off'], ['passed', ''])
        page = self.read('page.html').decode()
        for text in ('dither/table', 'alt="theirs"', 'alt="ours"', 'alt="difference"', 'the shown picture', 'Suite 2 of psxgpu'):
            self.assertIn(text, page)
        saved = re.search('download="dither-table.capture" href="data:application/octet-stream;base64,([^"]*)"', page)
        self.assertEqual(saved and base64.b64decode(saved[1])[:8], b'PSXGPUC1')

    def test_what_a_player_does_not_take(self):
        class VramAlone(Model):
            def run(self, mode, data, seconds=None):
                return super().run(mode, data, seconds) if mode == 'vram' else Done(1, b'', b'usage')
        status, out, _ = conform_of(VramAlone(), '--only', 'fills', '--only', 'status')
        self.assertEqual(status, 0)
        self.assertRegex(out, r'\| status \| (\d+) \|  \|  \|  \| \1 \|')
        self.assertRegex(out, r'^not taken: \d+ tests: no play: status 1, usage\n\| chapter')

    def test_a_crash_is_an_error(self):
        class Breaks(Model):
            def run(self, mode, data, seconds=None):
                return Done(-11, b'', b'') if len(data) > 40 else super().run(mode, data, seconds)
        status, out, _ = conform_of(Breaks(), '--only', 'copies/moves-a-box')
        self.assertEqual(status, 2)
        self.assertIn('error   copies/moves-a-box: ', out)
        self.assertIn('        vram: ended by SIGSEGV\n', out)

    def test_no_dump_is_one_line(self):
        status, _, err = conform_of(Fixed(Done(0, b'', b'')))
        self.assertEqual((status, err), (2, 'psxgpu conform: a player: no dump (status 0, 0 bytes)\n'))

    def test_bad_arguments_are_one_line(self):
        for words, text in ((['--only', 'nothing'], 'nothing: no chapter or test has this name'),
                            (['--jobs', '0'], '0 is not a number from 1 to 1024')):
            status, _, err = conform_of(Model(), *words)
            self.assertEqual((status, err.count('\n')), (2, 1))
            self.assertIn(text, err)

    def test_the_command_line(self):
        done = run_tool('conform', '--version')
        self.assertRegex(done.stdout, r'^suite 2: \d+ tests, 0 withdrawn\n$')
        done = run_tool('conform')
        self.assertEqual((done.returncode, done.stderr.count('\n')), (2, 1))

    def test_list(self):
        status, out, _ = conform_of(Model(), '--list', '--only', 'fills')
        self.assertEqual(status, 0)
        self.assertTrue(out.startswith('fills/size-and-color  '))
