"""The library as compilers find it after `make install`: by pkg-config and by CMake, in a tree that was moved."""
import os
import shutil
import subprocess
import unittest

from tests import support
from tests.library.test_c import ARCHIVE, RUN

setUpModule = support.needs_built(ARCHIVE, 'lib')
PROJECT = '''cmake_minimum_required(VERSION 3.13)
project(mine C CXX)
find_package(psxgpu 1 REQUIRED)
add_executable(shared mine.c)
target_link_libraries(shared psxgpu::psxgpu)
add_executable(static mine.cpp)
target_link_libraries(static psxgpu::static)
target_compile_options(static PRIVATE -Wall -Wextra -Wpedantic -Werror -Wzero-as-null-pointer-constant)
'''
MINE = '''#include <psxgpu.h>
#include <stdio.h>

int main(void) {
    psxgpu gpu = PSXGPU_NONE;
    uint32_t code = psxgpu_new(&gpu);
    psxgpu_free(&gpu);
    printf("%s %u\\n", psxgpu_version(), code);
    return 0;
}
'''
SAID = '1.0.0 0\n'


@unittest.skipIf(RUN, 'a library of another system is not installed')
class Found(support.InFolder):
    """`make install-library` into a folder, which is moved then."""

    def setUp(self) -> None:
        super().setUp()
        first, self.tree = self.path('first'), self.path('moved')
        subprocess.run(['make', '-s', '-C', support.TOP, 'install-library', 'DESTDIR=' + first, 'PREFIX=/opt/it'],
                       check=True, capture_output=True)
        os.rename(os.path.join(first, 'opt', 'it'), self.tree)
        self.write('mine.c', MINE.encode())
        self.write('mine.cpp', MINE.encode())
        self.write('CMakeLists.txt', PROJECT.encode())

    def said(self, *words: str, **more: str) -> str:
        """Runs a command in the folder. Returns what it prints."""
        done = subprocess.run(words, cwd=self.folder, capture_output=True, text=True, check=False,
                              env=dict(os.environ, **more))
        self.assertEqual(done.returncode, 0, done.stdout + done.stderr)
        return done.stdout

    @unittest.skipUnless(shutil.which('pkg-config'), 'pkg-config is not installed')
    def test_pkg_config(self) -> None:
        place = os.path.join(self.tree, 'lib', 'pkgconfig')
        flags = self.said('pkg-config', '--cflags', '--libs', 'psxgpu', PKG_CONFIG_PATH=place).split()
        self.said('cc', 'mine.c', *flags, '-o', 'mine')
        self.assertEqual(self.said('./mine', LD_LIBRARY_PATH=os.path.join(self.tree, 'lib')), SAID)
        self.assertEqual(self.said('pkg-config', '--modversion', 'psxgpu', PKG_CONFIG_PATH=place), '1.0.0\n')

    @unittest.skipUnless(shutil.which('cmake'), 'cmake is not installed')
    def test_cmake(self) -> None:
        self.said('cmake', '-S', '.', '-B', 'build', '-DCMAKE_PREFIX_PATH=' + self.tree)
        self.said('cmake', '--build', 'build')
        for name in 'shared', 'static':
            self.assertEqual(self.said(os.path.join('build', name)), SAID)

    @unittest.skipUnless(shutil.which('cmake'), 'cmake is not installed')
    def test_another_version(self) -> None:
        self.write('CMakeLists.txt', PROJECT.replace('psxgpu 1 ', 'psxgpu 2 ').encode())
        done = subprocess.run(['cmake', '-S', '.', '-B', 'build', '-DCMAKE_PREFIX_PATH=' + self.tree], cwd=self.folder,
                              capture_output=True, text=True, check=False)
        self.assertNotEqual(done.returncode, 0)
        self.assertIn('1.0.0', done.stderr)


if __name__ == '__main__':
    unittest.main()
