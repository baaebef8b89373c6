"""Folders of captures: bad input, and runs that end early."""
import os
import resource
import signal
import subprocess
import sys
import time

from tests.tools.corpus_support import Corpus


class Bad(Corpus):
    def test_no_capture(self):
        self.expect(2, '', r'psxgpu corpus: in: no capture', 'record', 'in', '--golden', 'golden', '--player', './small')
        self.expect(2, '', r'psxgpu corpus: none: No such file', 'record', 'none', '--golden', 'g', '--player', './small')

    def test_two_of_one_name(self):
        os.makedirs(self.path('more'))
        self.save('in/a.capture')
        self.save('more/a.capture')
        self.expect(2, '', 'two captures of the name a.capture: in/a.capture and more/a.capture',
                    'record', 'in', 'more', '--golden', 'golden', '--player', './small')

    def test_no_player(self):
        self.two()
        self.expect(2, '', './none: there is no such player', 'record', 'in', '--golden', 'golden', '--player', './none')

    def test_all_fail_alike(self):
        """A player that plays no capture is an error, and not a corpus in which nothing differs."""
        record = 'record', 'in', '--golden', 'golden', '--player', './moody'
        for word, end in (('no', 'refused 2 moody: no'), ('crash', 'crashes SIGSEGV')):
            for name in ('a', 'b'):
                self.write('in/%s.capture' % name, word + '\n')
            self.expect(2, '', 'psxgpu corpus: the player plays no capture: a.capture: %s\n$' % end, *record)
            self.assertEqual([name for name in os.listdir(self.folder) if name.startswith('golden')], [])
        self.write('in/a.capture', 'good\n')           # one that is played is enough
        self.expect(1, '2 captures: 1 crashes, 1 played\n', '', *record)
        golden = self.text('golden')
        self.expect(2, '', 'the player plays no capture: a.capture: fails 1 without a message\n$',
                    'check', 'in', '--golden', 'golden', '--player', 'false')
        self.assertEqual(self.text('golden'), golden)
        self.assertEqual(os.listdir(self.path('corpus-report')), ['.psxgpu-output'])

    def test_golden_files(self):
        self.two()
        self.record()
        text = self.text('golden')
        bad = {'psxgpu-corpus 2' + text[15:]: 'golden:1: version 2; this tool knows version 1',
               'hello\n': 'golden: not a file of sums', '': 'golden: not a file of sums',
               text[:200]: r'golden:\d+: ', text[:-1]: r'golden:\d+: the file ends inside a capture',
               text + text.split('\n\n', 1)[1]: r'golden:\d+: a second capture of the name a.capture',
               text.replace('words', 'sounds'): r'golden:\d+: not a line of a file of sums: sounds'}
        for words, err in bad.items():
            self.write('golden', words)
            self.expect(2, '', err, 'check', 'in', '--golden', 'golden', '--player', './small')

    def test_full_disk(self):
        """A file that may not grow stands for a disk that is full: what was played before is not played again."""
        self.two()

        def small():
            resource.setrlimit(resource.RLIMIT_FSIZE, (900, 900))
        self.expect(2, '', r'golden.part: File too large; 1 of 2 captures are kept in golden.part: run it again',
                    'record', 'in', '--golden', 'golden', '--player', './small', '--jobs', '1', preexec_fn=small)
        self.assertFalse(os.path.exists(self.path('golden')))
        self.expect(0, '2 captures: 2 played\n', '1 of 2 captures were played before', 'record', 'in', '--golden',
                    'golden', '--player', './small')
        self.assertFalse(os.path.exists(self.path('golden.part')))

    def has_a_row(self):
        return os.path.exists(self.path('golden.part')) and 'end played' in self.text('golden.part')

    def test_interrupted(self):
        def listens():
            # A shell starts what runs beside it with this signal ignored.
            signal.signal(signal.SIGINT, signal.default_int_handler)

        self.write('in/a.capture', 'good\n')
        self.write('in/hang.capture', 'hang\n')
        child = subprocess.Popen([sys.executable, '-m', 'psxgpu', 'corpus', 'record', 'in',
                                  '--golden', 'golden', '--player', './moody', '--limit', '25'],
                                 cwd=self.folder, text=True, stdout=subprocess.PIPE, stderr=subprocess.PIPE,
                                 preexec_fn=listens)
        until = time.monotonic() + 60
        while time.monotonic() < until and not self.has_a_row():
            time.sleep(0.05)
        child.send_signal(signal.SIGINT)
        out, err = child.communicate(timeout=90)
        self.assertEqual((child.returncode, out), (130, ''))
        self.assertRegex(err, 'interrupted; 1 of 2 captures are kept in golden.part: run it again to continue')
