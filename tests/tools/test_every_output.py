"""Every tool with every output on an input, and on a folder with a user's files: no file is lost. The outputs are found
from the parsers, so a new tool has to name what it reads and writes, and needs a row in RUNS."""
import argparse
import contextlib
import io
import os
import shutil

from psxgpu import capture as c
from psxgpu.__main__ import TOOLS, module_of
from psxgpu.commands import corpus
from psxgpu.command import ToolError, parser_of, status_of
from psxgpu.output import Grown, Role, Stem, Target, Text, Tree
from tests import support
from tests.tools.dumps_support import HAND_MADE
from tests.tools.test_page import SMALL

ONLY = ['--only', 'fills']
CORPUS = ['--player', './other', '--jobs', '1', '--gives', 'vram']
# What each tool reads; the files are made in `setUp`.
RUNS = {
    'first': ['2', 'in.capture'], 'join': ['in.capture', 'in2.capture'], 'mend': ['cut.capture'], 'from-log': ['in.log'],
    'from-dump': ['in.psxgpu'], 'to-dump': ['in.capture'], 'to-exe': ['in.capture', '-o', 'new.exe'],
    'picture': ['in.bin', '-o', 'new.png'], 'film': ['in.capture', '-o', 'new.mp4', '--flips'],
    'textures': ['in.capture'],
    'heat': ['in.capture'], 'compare': ['in.bin', 'in2.bin'], 'audit': ['in.capture', './ours', './other'],
    'reduce': ['in.capture', './ours', './other', '--jobs', '1'], 'conform': ['./other', *ONLY],
    'corpus record': ['record', 'in', '--golden', 'new.sums', *CORPUS],
    'corpus check': ['check', 'in', '--golden', 'in.sums', *CORPUS],
    'corpus join': ['join', 'in.sums', '--golden', 'new.sums'],
    'corpus split': ['split', 'in.capture', '--parts', '2', '--into', 'new', '--player', support.PLAYER],
    'corpus glue': ['glue', 'play', 'in.play', 'in.play'],
    'page': ['in.capture', '-o', 'new.html', '--viewer', 'viewer.html'],
    'view': ['in.capture', '--print', '--viewer', 'viewer.html'],
    'trim': ['in.capture', '--frames', '1-1'], 'diff': ['in.capture', 'in2.capture'],
    'packets': ['in.capture'], 'check': ['in.capture'], 'bisect': ['in.capture', './ours', './other'],
    'agree': ['./ours', './other', '1', 'fills'], 'selftest': [],
    'fuzz': ['./other', '--ours', './ours', '--captures', '48', '--jobs', '1', '--no-suite', '-o', 'new'],
}
READ = {('corpus check', '--golden')}       # what is an output of other actions only
USER = ('index.html', 'report.html', 'expected.tsv', 'sheet.png', '001.capture', 'played.sums',
        'captures/fills/color.capture')


def scene():
    """A capture with a textured rectangle, a fill and two frames."""
    capture = c.Capture().gp1(0x03000000, 0x06C60260, 0x07040010, 0x05000000).gp0(c.drawing_area(0, 0, 1023, 511))
    capture.gp0(c.load(640, 0, 4, 1, [1, 2, 3, 4]), c.draw_mode(c.texture_page(640, 0, 2)))
    capture.gp0(c.rectangle(0xFF, 4, 4, 8, 8), c.rectangle(0x80, 40, 40, 4, 1, texture=(0, 0), palette=0))
    return capture.gp1(0x05000001).gp0(c.fill(0xFF, 0, 100, 16, 16)).gp1(0x05000002)


def kind_of(action):
    """What an argument of a parser names."""
    with contextlib.suppress(argparse.ArgumentTypeError):
        return action.type('2') if callable(action.type) else None


def outputs_of(name):
    """The options of a row's tool that name an output, each with what it is."""
    tool, _, action_of_corpus = name.partition(' ')
    actions = parser_of(module_of(tool), tool)._actions
    found = {action.option_strings[-1]: kind_of(action) for action in actions if action.option_strings}
    if action_of_corpus:
        found['--output'] = corpus.OUTPUTS[action_of_corpus][1]('2')
    return {option: kind for option, kind in found.items() if isinstance(kind, (Target, Tree, Stem))}


@support.needs_player
class EveryOutput(support.InFolder):
    def setUp(self):
        super().setUp()
        before = os.getcwd()
        self.addCleanup(os.chdir, before)
        os.chdir(self.folder)
        data = scene().bytes()
        for name in ('in', 'user', 'user/captures', 'user/captures/fills'):
            os.mkdir(name)
        for name, text in (('in.capture', data), ('in2.capture', data), ('in/one.capture', data), ('cut.capture', data[:-9]),
                           ('in.log', b'gp0 0\nstat\n'), ('in.psxgpu', HAND_MADE), ('in.bin', bytes(4096)),
                           ('in2.bin', bytes([1]) + bytes(4095)), ('in.play', b'00000000\nstatus 14802000\n'),
                           ('ours', b'#!/bin/sh\nexec %s "$@"\n' % support.PLAYER.encode()),
                           ('other', b'#!/bin/sh\ntr "\\140" "\\142" | %s "$@"\n' % support.PLAYER.encode()),
                           ('stem.py', b'mine'), ('out.log', b'mine'), ('viewer.html', SMALL.encode()), *(('user/' + name, b'mine') for name in USER)):
            self.write(name, text)
        os.chmod('ours', 0o755)
        os.chmod('other', 0o755)
        self.ends('corpus', ['record', 'in', '--golden', 'in.sums', '--player', './ours', '--jobs', '1', '--gives', 'vram'])
        os.link('in.capture', 'hard.capture')
        os.symlink('in.capture', 'soft.capture')
        os.symlink('user', 'linked')

    @staticmethod
    def ends(tool, words):
        """Runs a tool in this process. Returns its status and its refusal."""
        with contextlib.redirect_stdout(io.StringIO()), contextlib.redirect_stderr(io.StringIO()):
            try:
                return status_of(module_of(tool), 'psxgpu ' + tool, words) or 0, ''
            except (ToolError, OSError) as error:
                return 2, str(error)

    def contents(self):
        """The bytes of all files."""
        return {os.path.join(folder, name): self.read(os.path.join(folder, name))
                for folder, _, names in os.walk(self.folder) for name in names}

    def candidates(self, kind, words):
        """Names for an output that would lose a file."""
        inputs = [word for word in words if word.startswith(('in', 'cut', './')) and os.path.isfile(word)]
        if isinstance(kind, Tree):
            return ['.', 'user', 'linked', './user/', 'in', *inputs[:1]]
        if isinstance(kind, Stem):
            return [os.path.splitext(word)[0] for word in inputs if word.endswith('.capture')] + ['stem', 'out', 'hard', 'soft']
        more = ['./' + word for word in inputs] + (['hard.capture', 'soft.capture'] if 'in.capture' in inputs else [])
        return inputs + more

    def test_each_tool_has_a_row(self):
        self.assertEqual({name.split()[0] for name in RUNS}, set(TOOLS))
        actions = {name.split()[1] for name in RUNS if ' ' in name}
        self.assertEqual((actions, actions), (set(corpus.WANTED), set(corpus.OUTPUTS)))

    def test_no_output_is_left_out(self):
        """Each argument that names an output, also one that has a place, has an option that is tried here. An option
        -o is one of them."""
        for tool in TOOLS:
            rows = [name for name in RUNS if name.split()[0] == tool]
            tried = set().union(*map(outputs_of, rows))
            actions = parser_of(module_of(tool), tool)._actions
            dests = {action.dest for action in actions if tried & set(action.option_strings)}
            for action in actions:
                with self.subTest(tool, argument=action.dest):
                    if isinstance(kind_of(action), (Target, Tree, Stem)) or '-o' in action.option_strings:
                        self.assertIn(action.dest, dests)

    def test_each_argument_has_a_role(self):
        """A text of an argument is a file that is read or written, a command, or `Text`."""
        for tool in TOOLS:
            for action in parser_of(module_of(tool), tool)._actions:
                if action.nargs == 0 or action.choices or isinstance(action, argparse._HelpAction):
                    continue
                with self.subTest(tool, argument=action.dest):
                    self.assertIsNotNone(action.type, 'name a type, such as Source, Target or Text')
                    with contextlib.suppress(argparse.ArgumentTypeError):
                        value = action.type('2')
                        self.assertTrue(isinstance(value, (Role, Text)) or not isinstance(value, str), value)

    def test_no_output_is_an_input(self):
        before = self.contents()
        for name, words in RUNS.items():
            tool = name.split()[0]
            for option, kind in outputs_of(name).items():
                for path in () if isinstance(kind, Grown) or (name, option) in READ else self.candidates(kind, words):
                    with self.subTest(name, option=option, path=path):
                        status, said = self.ends(tool, [*self.without(words, option), option, path])
                        self.assertEqual((status, said.count('\n')), (2, 0), said)
                        after = self.contents()
                        self.assertEqual([path for path in before if after.get(path) != before[path]], [])

    @staticmethod
    def without(words, option):
        """The words without an option and its value. -o is also the output of an action of corpus."""
        name = corpus.OUTPUTS[words[0]][0] if words[:1] and words[0] in corpus.OUTPUTS else ''
        same = {option, '-o', '--' + name} if option == '--output' else {option}
        at = next((k for k, word in enumerate(words) if word in same), -1)
        return words[:at] + words[at + 2:] if at >= 0 else words

    def test_output_of_corpus(self):
        """-o is refused as the option whose place it takes, and is not named twice."""
        for name in ('record', 'join'):
            words = self.without(RUNS['corpus ' + name], '--output')
            for more, text in ((['-o', 'new.gz'], 'argument -o/--output: new.gz: .gz is not written'),
                               (['-o', 'new', '--golden', 'new2'], 'two outputs are named: new2 and new')):
                status, said = self.ends('corpus', [*words, *more])
                self.assertEqual((status, said.startswith(text)), (2, True), said)

    def test_each_output_alone(self):
        """To a new name it is written, and the same tool writes it again."""
        for name, words in RUNS.items():
            tool = name.split()[0]
            if tool == 'film' and not shutil.which('ffmpeg'):
                continue
            for option, kind in outputs_of(name).items():
                for _ in range(0 if (name, option) in READ else 2):
                    path = 'fresh' + option + ('.mp4' if tool == 'film' else '')
                    with self.subTest(name, option=option):
                        status, said = self.ends(tool, [*self.without(words, option), option, path])
                        self.assertIn(status, (0, 1), said)
                self.expect_no_part()
                for path in os.listdir():
                    if path.startswith(('fresh', 'new', 'textures', 'reduced', 'corpus-report')):
                        shutil.rmtree(path) if os.path.isdir(path) else os.remove(path)

    def expect_no_part(self):
        for folder, folders, names in os.walk('.'):
            self.assertEqual([name for name in folders + names if '.part' in name], [])

    def test_two_outputs_are_two(self):
        for name, words in RUNS.items():
            tool = name.split()[0]
            files = [option for option, kind in outputs_of(name).items() if isinstance(kind, Target)]
            for one, other in zip(files, files[1:]):
                with self.subTest(name, one=one, other=other):
                    rest = self.without(self.without(words, one), other)
                    status, said = self.ends(tool, [*rest, one, 'twice.png', other, './twice.png'])
                    self.assertEqual((status, os.path.exists('twice.png')), (2, False), said)
                    status, said = self.ends(tool, [*rest, one, '-', other, '/dev/stdout'])
                    self.assertEqual(status, 2, said)
