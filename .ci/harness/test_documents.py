"""What checks the documents, and what they show of files."""
import os
import sys
import unittest

HERE = os.path.dirname(os.path.abspath(__file__))

from check_commands import commands, references, run_command, stand_in
from psxgpu.__main__ import TOOLS
from tests import support


class Documents(support.InFolder):
    def test_commands(self):
        text = ('Text\n$ none\n\n    $ one\n    1\n    2\n    $ two \\\n      more\n\n    none\n\n'
                '1. Item\n\n        $ three\n        3\n')
        self.assertEqual(commands(self.write('a.md', text)),
                         [[4, 'one', ['1', '2']], [7, 'two more', []], [14, 'three', ['3']]])
        self.assertEqual(commands(self.write('a.txt', '$ one\n1\n\n$ two\n')), [[1, 'one', ['1']], [4, 'two', []]])

    def test_run(self):
        stand_in(self.folder, sys.executable)
        command = 'ls examples/tall.txt; psxgpu_tool -c "print(3)" >&2'
        self.assertEqual(run_command(self.folder, command), ['examples/tall.txt', '3'])

    def test_references(self):
        text = ('# A (b), `c`\n[a](a.md) [b](b.md) [c](#a-b-c) [d](a.md#d) `psxgpu/capture.py` `psxgpu/none.py` '
                '`px_num/src/lib.rt` `px_num/src/none.rt` `px_num/src/lib.rt: mod, there_is_none`')
        path = self.write('a.md', text)
        self.assertEqual(list(references(path)), ['no file b.md', 'no heading a.md#d', 'no file psxgpu/none.py',
                                                  'no file crates/px_num/src/none.rt',
                                                  'no there_is_none in crates/px_num/src/lib.rt'])

    def test_co_process(self):
        """The tutorial shows the example as it is."""
        with open(os.path.join(support.EXAMPLES, 'co_process.py')) as file:
            lines = ['    ' + line if line.strip() else line for line in file]
        with open(os.path.join(support.TOP, 'docs', 'TUTORIAL.md')) as file:
            self.assertTrue(''.join(lines) in file.read())


class OneCommand(unittest.TestCase):
    def test_every_tool_has_a_name(self):
        """Each module of psxgpu.commands is a subcommand."""
        modules = {name[:-3].replace('_', '-') for name in os.listdir(os.path.join(support.TOP, 'psxgpu', 'commands'))
                   if name.endswith('.py') and name != '__init__.py'}
        self.assertEqual(modules, set(TOOLS))

    def test_help_and_unknown(self):
        done = support.run_tool('--help')
        self.assertEqual((done.returncode, done.stderr), (0, ''))
        self.assertIn('  compare ', done.stdout)
        done = support.run_tool('draw')
        self.assertEqual((done.returncode, done.stdout, done.stderr.count('\n')), (2, '', 1))
        done = support.run_tool('compare', 'none', 'none')
        self.assertEqual((done.returncode, done.stderr), (2, 'psxgpu compare: none: No such file or directory\n'))


if __name__ == '__main__':
    unittest.main()
