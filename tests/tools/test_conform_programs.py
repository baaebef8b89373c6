"""Programs for the console that hold many tests of the suite."""
import os
import shutil
import subprocess
import unittest

from tests.tools.console_support import build_processor, events_of
from tests.support import InFolder

from psxgpu.commands.conform import chosen, every_test
from psxgpu.conformance import folder, programs
from psxgpu.conformance.suite import Chapter
from psxgpu.console import page
from psxgpu.console.orders import Kind, Orders

HELD = chosen(['fills', 'stores/odd-count', 'lines/point', 'status/31-odd-line'])


class Programs(unittest.TestCase):
    def test_what_is_held(self):
        """Not the picture, DMA, turns and 1024 rows."""
        left = {test.chapter for test in every_test() if not programs.is_held(test)}
        self.assertEqual(left, {'display', 'dma', 'turns', 'tall'})

    def test_each_chapter_is_in_one_program(self):
        found = programs.programs(every_test())
        chapters = [name for program in found for name in program.chapters]
        self.assertEqual(len(chapters), len(set(chapters)))
        self.assertEqual(sum(len(program.tests) for program in found), sum(map(programs.is_held, every_test())))
        for program in found:
            for line in program.lines:
                self.assertEqual([letter for letter in line.before + line.after if letter not in page.GLYPHS], [' '] * (
                    line.before + line.after).count(' '))
            for _, row, column in program.squares():
                self.assertTrue(row < 2 and programs.LEFT + programs.PITCH * column + page.SIDE <= 304)

    def test_parts(self):
        """Parts have 64 by 64 cells: the cell (64, 64) is in part 17, (1023, 511) in part 127."""
        cells = bytearray(1 << 20)
        cells[2 * (1024 * 64 + 64)] = cells[-1] = 1
        bits, found = programs.parts_of(bytes(cells))
        self.assertEqual(bits, [1 << 17, 0, 0, 1 << 31])
        self.assertEqual(len(found), 2)

    def test_reads(self):
        """A read of an open store waits for it; the status has time; a word is compared in the bits of the mask."""
        chapter = Chapter('chapter', 'section')

        @chapter.test('says')
        def reads(t):
            t.packet(0xC0000000, 0, 1 << 16 | 2)
            t.read(0x12345678, mask=0xFFFF)
            t.read(7)
            t.stat(1 << 26, mask=1 << 26)
        orders = Orders(0, False)
        plan = programs.Checked(orders, chapter.tests[0].draft.words)
        for record in programs.Stream(programs.io.BytesIO(chapter.tests[0].data), 'test'):
            plan.take(*record)
        self.assertEqual(list(orders.words[4:]), [
            Kind.EXPECT_STORE << 24, 0xFFFF, 0x5678, Kind.EXPECT << 24, 0xFFFFFFFF, 7,
            Kind.EXPECT_STATUS << 24, 1 << 26, 1 << 26])


@unittest.skipUnless(shutil.which('gcc'), 'no gcc')
class Bare(InFolder):
    def test_what_a_gpu_fails_that_draws_nothing(self):
        """The bare GPU draws nothing, reads 0, and has the status bits of psx-spx."""
        passes = {'fills/size-0', 'status/31-odd-line'}
        folder.write(HELD, self.path('out'), None)
        program = self.path('out/programs/suite-1.exe')
        done = subprocess.run([build_processor(self.folder), program, self.path('ports'), '2000000000'],
                              stdout=subprocess.PIPE, check=True, text=True)
        said = done.stdout.splitlines()
        failed = ['FAILED: ' + test.full_name for test in HELD if test.full_name not in passes]
        self.assertEqual(said[:-1], ['FAILED: 015 OF 017 TESTS', 'WAITS TOO LONG: 000', *failed])
        self.assertRegex(said[-1], r'overflow 0 early 0 .* hazards 0 waits 0$')
        found = events_of(self.read('ports'))
        self.assertEqual((found.count(('gp0', 0x6000A000)), found.count(('gp0', 0x600000FF))), (2, 15))

    def test_squares(self):
        lines = folder.write([*HELD, *chosen(['dma/blocks'])], self.path('out'), None)
        self.assertIn('1 tests are in none of programs/', lines)
        rows = self.read('out/programs/squares.tsv').decode().splitlines()
        self.assertEqual(rows[:2], ['program\tchapter\trow\tcolumn\ttest',
                                    'suite-1.exe\tfills\t1\t1\tfills/size-and-color'])
        self.assertEqual(len(rows), 1 + len(HELD))
        self.assertFalse(os.path.exists(self.path('out/programs/suite-2.exe')))
