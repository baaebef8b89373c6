"""Tests of proving/times.py: python3 tests/proving/test_times.py. A small `rt` stands in for the kit's."""
import os
import shutil
import subprocess
import sys
import tempfile
import unittest

ROOT = os.path.dirname(os.path.dirname(os.path.dirname(os.path.abspath(__file__))))

# Checks the crate of its folder, whose modules it writes one after another; one of them takes longer than the others.
RT = r'''#!/bin/sh
[ "$*" = 'check --jobs 1' ] || exit 9
[ -z "$REFUSED" ] || exit 1
kept=out/incremental/checked
mkdir -p $kept
[ -z "$NOTHING" ] || exit 0
touch $kept/Rattle-low-proofs.rig.Rig.play.Goals.decls.oantt
sleep 0.5
touch $kept/Rattle-low-proofs.rig.Rig.play.Proof.decls.oantt
sleep 0.1
touch $kept/Rattle-low-proofs.Lemmas.oantt $kept/Rattle-low.specs.Words.oantt $kept/judged
'''


class Times(unittest.TestCase):
    """The one crate is low."""

    def setUp(self) -> None:
        self.place = tempfile.TemporaryDirectory()
        self.addCleanup(self.place.cleanup)
        os.makedirs(self.path('crates', 'low', 'src'))
        os.mkdir(self.path('proving'))
        for name in '__init__.py', 'times.py', 'plan.py':
            shutil.copy(os.path.join(ROOT, 'proving', name), self.path('proving'))
        self.write('low:\nhigh: low\n', 'crates.txt')
        self.write('# CRATE SECONDS\nhigh 7\n', 'proving', 'seconds.txt')
        self.write(RT, 'rt')
        os.chmod(self.path('rt'), 0o755)

    def path(self, *names: str) -> str:
        return os.path.join(self.place.name, *names)

    def write(self, text: str, *names: str) -> None:
        with open(self.path(*names), 'w', encoding='utf-8') as file:
            file.write(text)

    def rows(self) -> str:
        with open(self.path('proving', 'seconds.txt'), encoding='utf-8') as file:
            return file.read()

    def run_times(self, *words: str, **settings: str) -> 'subprocess.CompletedProcess[str]':
        env = dict(os.environ, PATH=self.place.name + os.pathsep + os.environ['PATH'], **settings)
        return subprocess.run([sys.executable, '-m', 'proving.times', *words], cwd=self.place.name, env=env, text=True,
                              capture_output=True, check=False)

    def test_the_dearest_function_is_first(self) -> None:
        ran = self.run_times('low')
        self.assertEqual(ran.returncode, 0, ran.stderr)
        rows = [line.split() for line in ran.stdout.splitlines()]
        self.assertEqual(rows[0][2], 'rig.Rig.play')
        self.assertGreater(float(rows[0][0]), 0.4)
        self.assertEqual({row[2] for row in rows[1:3]}, {'Lemmas', 'specs.Words'})
        self.assertEqual(rows[3][2], 'low,')

    def test_only_so_many(self) -> None:
        self.assertEqual(len(self.run_times('--most', '1', 'low').stdout.splitlines()), 2)

    def test_keeps_the_seconds_of_the_crate(self) -> None:
        self.assertEqual(self.run_times('--keep', 'low').returncode, 0)
        self.assertRegex(self.rows(), r'\A# CRATE SECONDS\nhigh 7\nlow \d+\n\Z')

    def test_kept_modules_have_no_time(self) -> None:
        os.makedirs(self.path('crates', 'low', 'out', 'incremental'))
        old = self.path('crates', 'low', 'out', 'incremental', 'Rattle-low-proofs.Old.oantt')
        self.write('', 'crates', 'low', 'out', 'incremental', 'Rattle-low-proofs.Old.oantt')
        os.utime(old, (1, 1))
        ran = self.run_times('--keep', 'low')
        self.assertEqual(ran.returncode, 0)
        self.assertIn('1 of 5 modules were kept by an earlier check', ran.stdout)
        self.assertNotIn('Old', ran.stdout)
        self.assertNotIn('low', self.rows())

    def test_a_check_that_proves_nothing_anew(self) -> None:
        ran = self.run_times('low', NOTHING='1')
        self.assertEqual((ran.returncode, ran.stdout), (2, ''))
        self.assertIn('proved nothing anew', ran.stderr)

    def test_a_crate_that_is_not_proved(self) -> None:
        ran = self.run_times('--keep', 'low', REFUSED='1')
        self.assertEqual((ran.returncode, ran.stdout), (1, ''))
        self.assertNotIn('low', self.rows())

    def test_a_crate_that_is_not_there(self) -> None:
        self.assertEqual(self.run_times('lower').returncode, 2)

    def test_a_measured_crate_counts_by_its_time(self) -> None:
        code = ('from proving.plan import measured, seconds_of\n'
                'print(seconds_of("high", measured()), seconds_of("low", measured()))')
        ran = subprocess.run([sys.executable, '-c', code], cwd=self.place.name, text=True, capture_output=True,
                             check=True)
        self.assertEqual(ran.stdout, '7.0 30.0\n')


if __name__ == '__main__':
    unittest.main()
