"""Ctrl-C ends a tool at any time without a traceback, and with it the players that run."""
import os
import signal
import subprocess
import sys
import time
import unittest
from unittest import mock

from tests import support
from psxgpu import capture as c
from psxgpu import stopping

# Runs a tool, and stops itself after some seconds.
STOPS = '''
import os, signal, sys, threading, time
from psxgpu.__main__ import main
signal.signal(signal.SIGINT, signal.default_int_handler)
begun = threading.Event()
def stop():
    begun.wait()
    time.sleep(%f)
    os.kill(os.getpid(), signal.SIGINT)
threading.Thread(target=stop, daemon=True).start()
begun.set()
sys.exit(main(%r))
'''


class Held(unittest.TestCase):
    """A signal that comes while something is made: it is known at that time, and removed."""

    @staticmethod
    def after(make, made):
        """Returns what makes a thing and is then stopped."""
        def making(*words, **settings):
            made.append(make(*words, **settings))
            os.kill(os.getpid(), signal.SIGTERM)
            time.sleep(0.01)        # the signal is handled
            return made[-1]
        return making

    def stopped_in(self, name, block):
        """Runs a block that is stopped where it makes a thing. Returns the thing."""
        made = []
        module, _, function = name.partition('.')
        place = getattr(stopping, module)
        with mock.patch.object(place, function, self.after(getattr(place, function), made)):
            with self.assertRaises(stopping.Stopped) as found, stopping.stoppable():
                block()
        self.assertEqual((found.exception.number, stopping.HELD, len(made)), (signal.SIGTERM, [], 1))
        return made[0]

    def test_a_process(self):
        def block():
            with stopping.session(['sleep', '300'], stdout=subprocess.PIPE):
                self.fail('the block has begun')
        child = self.stopped_in('subprocess.Popen', block)
        self.assertEqual((child.returncode, child.stdout.closed, child in stopping.RUNNING),
                         (-signal.SIGKILL, True, False))

    def test_a_file(self):
        def block():
            with stopping.scratch():
                self.fail('the block has begun')
        self.assertTrue(self.stopped_in('tempfile.TemporaryFile', block).closed)


class Stopped(support.InFolder):
    def test_while_modules_load(self):
        for delay in (0.02, 0.05, 0.1, 0.2, 0.4):
            done = subprocess.run([sys.executable, '-S', '-c', STOPS % (delay, ['conform', '--list'])],
                                  capture_output=True, text=True, cwd=support.TOP)
            with self.subTest(delay):
                self.assertIn(done.returncode, (0, 130, -signal.SIGINT), done.stderr[-300:])
                self.assertNotIn('Traceback', done.stderr)

    def test_players_end(self):
        """A player that does not end does not keep the tool, and is ended itself."""
        capture = self.write('a.capture', c.Capture().gp0(0).bytes())
        player = 'echo $$ >> pids; exec sleep 300 #'
        child = subprocess.Popen([sys.executable, '-m', 'psxgpu', 'bisect', capture, player, player], cwd=self.folder,
                                 stdout=subprocess.PIPE, stderr=subprocess.PIPE, text=True,
                                 preexec_fn=lambda: signal.signal(signal.SIGINT, signal.default_int_handler))
        until = time.monotonic() + 60
        while time.monotonic() < until and not (os.path.exists(self.path('pids')) and self.read('pids').count(b'\n') == 2):
            time.sleep(0.05)
        begin = time.monotonic()
        child.send_signal(signal.SIGINT)
        _, said = child.communicate(timeout=100)
        self.assertEqual((child.returncode, said), (130, 'psxgpu bisect: interrupted\n'))
        self.assertLess(time.monotonic() - begin, 60)
        for number in self.read('pids').split():
            self.assertFalse(os.path.exists('/proc/%s' % number.decode()), number)

    def test_a_player_that_does_not_end(self):
        capture = self.write('a.capture', c.Capture().gp0(0).bytes())
        done = support.run_tool('bisect', capture, 'sleep 300 #', 'sleep 300 #', '--seconds', '1')
        self.assertEqual((done.returncode, done.stderr), (2, 'psxgpu bisect: sleep 300 #: no dump (no end in time)\n'))
