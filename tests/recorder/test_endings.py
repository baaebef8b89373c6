"""Tests of how `record` ends What stands for pcsxr is a line of shell."""
import glob
import os
import signal
import subprocess
import time

from tests.recorder.recorded import Command


class Endings(Command):
    """They need the plugins of pcsxr, which are looked for."""

    def setUp(self):
        super().setUp()
        if not glob.glob('/usr/lib/*/psemu'):
            self.skipTest('no pcsxr on this machine')

    def test_silent_emulator(self):
        status, _, errors = self.record(pcsxr='echo something; exit 3')
        self.assertEqual((status, errors), (1, 'record: the emulator recorded nothing; it said: something\n'))

    def test_full_disk(self):
        said = 'psxgpu_record: failed: a.capture: 1 frames, 16 bytes, and then: No space left on device'
        status, _, errors = self.record(pcsxr='echo "%s" >&2; exit 3' % said)
        self.assertEqual((status, errors), (1, 'record: %s\n' % said[23:]))

    def test_ended_early(self):
        said = 'psxgpu_record: a.capture: 8 frames, 16 bytes'
        status, out, errors = self.record(pcsxr='echo "%s" >&2; printf "PSXGPUC2\\0\\0\\0\\0" > $PSXGPU_CAPTURE' % said)
        self.assertEqual((status, out), (1, said[15:] + '\n'))
        self.assertEqual(errors, 'record: the emulator ended after 8 of 9 frames; what was recorded is whole\n')

    def test_killed(self):
        status, said, errors = self.record(pcsxr='printf "PSXGPUC2\\0\\0" > $PSXGPU_CAPTURE; kill -9 $$')
        with open(self.capture, 'rb') as file:
            self.assertEqual(file.read(), b'PSXGPUC2' + bytes(4))
        self.assertEqual((status, said), (1, ''))
        self.assertIn('the emulator did not end it; what it holds was made whole', errors)

    def test_killed_in_a_later_part(self):
        files = 'for n in "" .2 .2.vram; do printf "PSXGPUC2\\0\\0\\0\\0" > $PSXGPU_CAPTURE$n; done\n'
        status, _, errors = self.record(pcsxr=files + 'printf "PSXGPUC2\\0\\0\\0\\5" > $PSXGPU_CAPTURE.3; kill -9 $$')
        self.assertEqual(status, 1)
        self.assertIn('a.capture.3: the emulator did not end it', errors)
        with open(self.capture + '.3', 'rb') as file:
            self.assertEqual(file.read(), b'PSXGPUC2\0\0\0\5' + bytes(4))

    def test_too_slow(self):
        slow = 'echo psxgpu_record: a >&2; printf "PSXGPUC2\\0\\0\\0\\0" > $PSXGPU_CAPTURE\nexec sleep 9'
        status, _, errors = self.record('--seconds', '0.2', pcsxr=slow)
        line = 'record: 0.2 seconds were over before 9 frames; what was recorded is whole\n'
        self.assertEqual((status, errors), (1, line))

    def test_no_frames_asked_for(self):
        """FRAMES 0: any end is one that was asked for, after a frame at least."""
        said = 'echo "psxgpu_record: a: %d frames, 16 bytes" >&2; printf "PSXGPUC2\\0\\0\\0\\0" > $PSXGPU_CAPTURE\n'
        self.assertEqual(self.record('--seconds', '0.5', pcsxr=said % 7 + 'exec sleep 9', frames='0')[0], 0)
        self.assertEqual(self.record(pcsxr=said % 7, frames='0')[0], 0)
        status, _, errors = self.record(pcsxr='echo Could not load CD-ROM!\n' + said % 0, frames='0')
        self.assertEqual(status, 1)
        self.assertIn('after 0 of 0 frames; it said: Could not load CD-ROM!', errors)

    def test_no_frame_at_all(self):
        said = 'psxgpu_record: a.capture: 0 frames, 12 bytes'
        files = 'printf "PSXGPUC2\\0\\0\\0\\0" > $PSXGPU_CAPTURE; echo Could not load CD-ROM!; echo "%s" >&2' % said
        status, _, errors = self.record(pcsxr=files)
        self.assertEqual((status, errors), (1, (
            'record: the emulator ended after 0 of 9 frames; it said: Could not load CD-ROM!; '
            'what was recorded is whole\n')))

    def test_earlier_parts_are_not_judged(self):
        """A file CAPTURE.2 of an earlier recording stays as it is, and is no failure of this one."""
        old = self.write('a.capture.2', 'PSXGPUC2 which ends nowhere')
        said = 'echo "psxgpu_record: a: 9 frames, 16 bytes" >&2; printf "PSXGPUC2\\0\\0\\0\\0" > $PSXGPU_CAPTURE'
        self.assertEqual(self.record(pcsxr=said)[::2], (0, ''))
        with open(old) as file:
            self.assertEqual(file.read(), 'PSXGPUC2 which ends nowhere')

    def test_ended_by_signals(self):
        """The emulator is ended with `record`, which says what was recorded, without a traceback."""
        slow = ('echo $$ > $PSXGPU_CAPTURE.pid; trap "exit 0" TERM\n'
                'echo psxgpu_record: a: 3 frames, 9 bytes >&2; printf "PSXGPUC2\\0\\0\\0\\0" > $PSXGPU_CAPTURE\n'
                'while :; do sleep 0.1; done')
        for number in (signal.SIGTERM, signal.SIGINT, signal.SIGHUP):
            child = subprocess.Popen(self.command(pcsxr=slow), stdout=subprocess.PIPE, stderr=subprocess.PIPE,
                                     text=True)
            emulator = self.wait_for_process(self.capture + '.pid')
            child.send_signal(number)
            out, errors = child.communicate()
            self.assertEqual((child.returncode, out), (128 + number, 'a: 3 frames, 9 bytes\n'))
            self.assertEqual(errors, 'record: ended by %s after 3 frames; what was recorded is whole\n'
                             % signal.Signals(number).name)
            self.assertFalse(os.path.exists('/proc/%d' % emulator))

    def test_killed_itself(self):
        """Where `record` is killed, the emulator does not stay."""
        child = subprocess.Popen(self.command(pcsxr='echo $$ > $PSXGPU_CAPTURE.pid; exec sleep 60'),
                                 env=dict(os.environ, TMPDIR=self.folder))
        emulator = self.wait_for_process(self.capture + '.pid')
        child.kill()
        child.wait()
        for _ in range(100):
            if not os.path.exists('/proc/%d' % emulator) or self.is_dead(emulator):
                return
            time.sleep(0.1)
        self.fail('the emulator runs on')

    def is_dead(self, number):
        with open('/proc/%d/stat' % number) as file:
            return file.read().rsplit(')', 1)[1].split()[0] == 'Z'

    def wait_for_process(self, path):
        """The number that a file has once it is there; the file is removed."""
        for _ in range(600):
            if os.path.exists(path) and os.path.getsize(path):
                time.sleep(0.3)
                with open(path) as file:
                    number = int(file.read())
                os.remove(path)
                return number
            time.sleep(0.1)
        self.fail('the emulator does not begin')

    def test_the_signal_is_handed_on(self):
        """SIGUSR1, by which a recording begins and ends."""
        waits = ('trap "echo psxgpu_record: a: 5 frames, 9 bytes >&2; exit 0" USR1; echo $$ > $PSXGPU_CAPTURE.pid\n'
                 'printf "PSXGPUC2\\0\\0\\0\\0" > $PSXGPU_CAPTURE; while :; do sleep 0.1; done')
        child = subprocess.Popen(self.command(pcsxr=waits, frames='0'), stdout=subprocess.PIPE, text=True)
        self.wait_for_process(self.capture + '.pid')
        child.send_signal(signal.SIGUSR1)
        self.assertEqual((child.communicate()[0], child.returncode), ('a: 5 frames, 9 bytes\n', 0))

    def test_earlier_recording_is_kept(self):
        """Where nothing can be recorded, an earlier file is as it was."""
        self.write('a.capture', 'an earlier one')
        self.assertEqual(self.record(program='/nowhere/b.exe')[0], 1)
        self.assertEqual(self.record(pcsxr='exit 3')[0], 1)
        with open(self.capture) as file:
            self.assertEqual(file.read(), 'an earlier one')
