"""How .ci/run counts, what it installs, and what .ci/packages names. Its programs are stand-ins."""
import os
import re
import shutil
import subprocess
import unittest

from tests import support

CI = os.path.join(support.TOP, '.ci')
PLAYER = 'crates/psxgpu_tool/out/psxgpu_tool'
MAKE = 'echo "$@" >> made\ncase $* in *psxgpu_tool) mkdir -p ${PLAYER%/*} && cp /bin/true $PLAYER ;; esac\n'
# The packages that are installed have a file each. The archive has those of the file `archive`.
DPKG = 'eval name=\\$$#\n[ ! -e packages/$name ] || printf installed\n'
APT = '''echo "$@" >> asked
case $* in *install*) ;; *) exit ${UPDATE:-0} ;; esac
while [ "$1" != install ]; do shift; done
shift
for name in "$@"; do grep -qx $name archive || exit 1; done
for name in "$@"; do touch packages/$name; done
'''


class Packages(unittest.TestCase):
    def test_each_is_for_a_check(self):
        """A package is named once, with checks that there are, in the order of the alphabet."""
        with open(os.path.join(CI, 'packages'), encoding='utf-8') as file:
            lines = [line.split() for line in file if not line.startswith('#')]
        names, checks = [line[0] for line in lines], os.listdir(os.path.join(CI, 'checks'))
        self.assertEqual(names, sorted(set(names)))
        for name, *needed_for in lines:
            with self.subTest(name):
                self.assertTrue(needed_for)
                self.assertEqual((needed_for, set(needed_for) - set(checks)), (sorted(set(needed_for)), set()))


class Run(support.InFolder):
    def setUp(self):
        super().setUp()
        for name in ('.ci/checks', 'bin', 'packages'):
            os.makedirs(self.path(name))
        for name in ('run', 'install_packages'):
            shutil.copy(os.path.join(CI, name), self.path('.ci/' + name))
        self.write('.ci/packages', '# Names.\none first second\nthree third\n')
        self.write('archive', 'one\nthree\n')
        for name, text in (('make', MAKE), ('dpkg-query', DPKG), ('apt-get', APT), ('id', 'echo ${USER_NUMBER:-0}\n')):
            self.program('bin/' + name, text)
        for name, text in (('first', 'echo it is right\n'), ('second', 'echo skipped in part: no y\n')):
            self.program('.ci/checks/' + name, text)

    def program(self, name, text):
        os.chmod(self.write(name, '#!/bin/sh\n' + text), 0o755)

    def run_all(self, status, said='', **more):
        """Runs .ci/run, which says `said` on standard error. Returns its lines, without the times."""
        environment = dict(os.environ, PATH=self.path('bin') + ':' + os.environ['PATH'], **more)
        done = subprocess.run(['.ci/run'], cwd=self.folder, env=environment, capture_output=True, text=True)
        self.assertEqual((done.returncode, done.stderr), (status, said), done.stdout)
        lines = re.sub(r'in \d+ s:', 'in 0 s:', done.stdout).splitlines()
        return [line for line in lines if not re.fullmatch(r'-- \d+ s', line)]

    def test_all_is_there(self):
        for name in ('one', 'three'):
            self.write('packages/' + name, '')
        self.assertEqual(self.run_all(0), [
            'packages: all are installed', '== make test', '== the program is built',
            '== the programs of other systems are built', '== first', 'it is right', '== second',
            'skipped in part: no y', 'second: skipped in part: no y', '5 passed, 0 failed, 0 skipped'])
        self.assertEqual(self.read('made').decode().splitlines(),
                         ['test', '-s ' + PLAYER, '-s systems', '-s ARCH=aarch64 run lib'])
        self.assertFalse(os.path.exists(self.path('asked')))

    def test_root_installs(self):
        """What is missing is installed. A check that is skipped then has failed, unless what it needs is in no package.
        """
        self.write('packages/one', '')
        self.program('.ci/checks/second', 'echo skipped: no x\nexit 77\n')
        self.program('.ci/checks/third', 'echo skipped: no vectors\nexit 78\n')
        found = self.run_all(1)
        self.assertEqual(found[0], 'packages: installed in 0 s: three')
        self.assertEqual(found[-7:], [
            'skipped: no x', 'FAILED: .ci/checks/second was skipped, and all packages are installed', '== third',
            'skipped: no vectors', 'second: skipped: no x', 'third: skipped: no vectors',
            '4 passed, 1 failed, 1 skipped'])
        self.assertEqual(self.run_all(1)[0], 'packages: all are installed')

    def test_others_say_what_was_skipped(self):
        self.program('.ci/checks/second', 'echo skipped: no x\nexit 77\n')
        found = self.run_all(0, USER_NUMBER='1000')
        self.assertEqual(found[0], 'packages: only root can install these: one three')
        self.assertNotIn('== the programs of other systems are built', found)
        self.assertEqual(found[-2:], ['second: skipped: no x', '3 passed, 0 failed, 1 skipped'])
        self.assertFalse(os.path.exists(self.path('asked')))

    def test_archive_has_not_all(self):
        """What it has is installed, and checks may be skipped."""
        self.write('archive', 'three\n')
        self.program('.ci/checks/second', 'echo skipped: no x\nexit 77\n')
        found = self.run_all(0)
        self.assertEqual(found[0], 'packages: the archive does not answer, or does not have these: one')
        self.assertEqual(os.listdir(self.path('packages')), ['three'])
        self.assertEqual(found[-1], '3 passed, 0 failed, 1 skipped')

    def test_archive_does_not_answer(self):
        """What it has by its old lists is tried once."""
        self.write('archive', '')
        found = self.run_all(0, UPDATE='100')
        self.assertEqual(found[0], 'packages: the archive does not answer, or does not have these: one three')
        self.assertEqual(self.read('asked').count(b'install'), 2)       # --no-install-recommends, install

    def test_failures(self):
        self.program('.ci/checks/first', 'echo it is wrong\nexit 3\n')
        found = self.run_all(1, USER_NUMBER='1000')
        self.assertEqual((found[-1], found.count('FAILED: .ci/checks/first')), ('3 passed, 1 failed, 0 skipped', 1))
        self.program('.ci/checks/first', 'kill -9 $PPID\n')
        self.assertIn('FAILED: .ci/checks/first', self.run_all(1, 'Killed\n', USER_NUMBER='1000'))
        self.program('bin/make', 'exit 2\n')
        self.assertEqual(self.run_all(1, USER_NUMBER='1000')[-2:], ['FAILED: make test', '0 passed, 1 failed'])


if __name__ == '__main__':
    unittest.main()
