"""Every statement of the grammar of GP0 against `psxgpu_tool list`, on random words: the tools' splitter and the cutter of
dumps, the plain model of the suite, the viewer's splitter in node, the recorder's ports.h in C. Each has to find the same
items; areas and sizes that they compute are those that `list` has."""
import array
import os
import random
import shutil
import struct
import subprocess
import tempfile
import unittest

from psxgpu import capture as c
from psxgpu.dumps.cutter import Cutter
from psxgpu.packets.grammar import COPY, FILL, FINISH, LINE, LOAD, POLYLINE, cells_of, data_words, fill_box
from psxgpu.packets.split import Splitter
from suite_trials.model import Machine
from tests import support
from web import bundle

HERE = os.path.dirname(os.path.abspath(__file__))
WORDS, SEEDS = 4000, range(2)
DRAWN = range(0x20, 0x80)


def random_word(numbers):
    """Returns a word: opcodes of all kinds, sizes that are small enough to end, and words that end a polyline."""
    kind = numbers.randrange(8)
    if kind < 3:
        return numbers.randrange(256) << 24 | numbers.randrange(1 << 24)
    if kind == 3:
        return 0x50005000 | numbers.randrange(1 << 32) & 0x0FFF0FFF
    return numbers.randrange(40) << 16 | numbers.randrange(40)


def random_words(seed):
    """Returns the words of a run. A size that would take most of the run is made small."""
    numbers, splitter, words = random.Random(seed), Splitter(), []
    while len(words) < WORDS:
        word = random_word(numbers)
        if splitter.words and splitter.words[0] >> 29 == 5 and len(splitter.words) == 2 and data_words(word) > 300:
            word = 0x00050003
        list(splitter.push([word]))
        words.append(word)
    return words


def packed(words):
    """Returns words as bytes."""
    return struct.pack('<%dI' % len(words), *words)


@support.needs_player
class Grammar(unittest.TestCase):
    """The items of random words, as (number of the word that completes it, name, first word)."""

    @classmethod
    def setUpClass(cls):
        cls.runs = []
        for seed in SEEDS:
            words = random_words(seed)
            done = subprocess.run([support.PLAYER, 'list'], input=c.Capture().gp0(words).bytes(), capture_output=True,
                                  check=True)
            lines = [line.split() for line in done.stdout.decode().splitlines()]
            cls.runs.append((words, [(int(event), name, int(head, 16)) for event, name, head, *_ in lines],
                             [line[3:] for line in lines]))

    def test_runs_have_everything(self):
        heads = {head >> 24 for _, items, _ in self.runs for _, _, head in items}
        self.assertGreater(len(heads), 200)
        for name in (COPY, FILL, FINISH, LINE, LOAD):
            self.assertGreater(sum(it[1] == name for _, items, _ in self.runs for it in items), 2, name)

    def test_splitter(self):
        for words, items, _ in self.runs:
            for size in (1, 7, len(words)):
                splitter, found = Splitter(), []
                for at in range(0, len(words), size):
                    found += [(at + end, name, packet[0]) for name, packet, end in splitter.push(words[at:at + size])]
                self.assertEqual(found, items)

    def test_sizes_and_areas(self):
        for words, items, areas in self.runs:
            for (event, name, _), area in zip(items, areas):
                packet = words[event - {FILL: 3, COPY: 4, LOAD: 3}.get(name, 1):event]
                if name == FILL:
                    x, y, w, h = fill_box(packet)
                    y %= 512
                elif name in (COPY, LOAD):
                    (x, y), (w, h) = (packet[-2] & 0x3FF, packet[-2] >> 16 & 0x1FF), cells_of(packet[-1])
                else:
                    continue
                box = [str(it) for it in (x, y, x + w - 1, y + h - 1)] if w and h else ['-']
                self.assertEqual(area, box, (event, name))

    def ends(self, words, items):
        """Returns after how many words nothing is open, by `list`: items without the data of a load and the joints of a
        polyline."""
        ends, in_polyline = [], False
        for event, name, head in items:
            in_polyline = name == LINE and bool(head >> 24 & POLYLINE)
            if not in_polyline:
                ends.append(event + (data_words(words[event - 1]) if name == LOAD else 0))
        return [end for end in ends if end <= len(words)]

    def test_cutter_of_dumps(self):
        for words, items, _ in self.runs:
            cutter, at, ends = Cutter(), 0, []
            cutter.push(array.array('I', words))
            out = cutter.take()
            while at < len(out):
                length = out[at] & 0xFFFFFF
                at += 1 + length
                ends.append(length + (ends[-1] if ends else 0))
            self.assertEqual(ends, self.ends(words, items))

    def test_model(self):
        for words, items, _ in self.runs:
            machine, ends = Machine(False), []
            machine.packet = lambda its, do=machine.packet: do(its) if its[0] >> 24 not in DRAWN or its[0] >> 29 == 2 else None
            for number, word in enumerate(words, 1):
                machine.gp0(word)
                if machine.loading is None and machine.joint is None and not machine.words:
                    ends.append(number)
            self.assertEqual(ends, self.ends(words, items))

    @unittest.skipUnless(shutil.which('gcc'), 'no gcc')
    def test_ports(self):
        with tempfile.TemporaryDirectory() as folder:
            program = os.path.join(folder, 'ports')
            subprocess.run(['gcc', '-std=c99', '-Wall', '-Wextra', '-Werror', '-O1', '-I', os.path.join(support.TOP, 'recorder'),
                            os.path.join(HERE, 'grammar_ports.c'), '-o', program], check=True)
            for words, items, _ in self.runs:
                said = subprocess.run([program], input=packed(words), capture_output=True, check=True).stdout
                self.assertEqual([k for k, it in enumerate(said, 1) if it == ord('1')], self.ends(words, items))

    @unittest.skipUnless(shutil.which('node'), 'no node')
    def test_viewer(self):
        script = bundle.script_of(support.TOP, 'tests/tools/grammar_rows')
        for words, items, _ in self.runs:
            said = subprocess.run(['node', '-e', script], input=packed(words), capture_output=True, check=True).stdout
            rows = [line.split() for line in said.decode().splitlines()]
            self.assertEqual([(int(done), name, int(head, 16)) for done, name, head in rows], items)
