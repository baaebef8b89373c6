"""What the tests of the crate share: its driver, which cargo builds once."""
import functools
import os
import subprocess

from tests import support
from tests.support import TOP

HERE = os.path.dirname(os.path.abspath(__file__))
TARGET = os.path.join(TOP, 'out', 'rust')
ARCHIVE = os.path.join(TOP, 'out', 'libpsxgpu.a')


def cargo(*words, folder=os.path.join(TOP, 'rust', 'psxgpu')):
    """Runs cargo without a network, with the library of this checkout."""
    environment = dict(os.environ, CARGO_TARGET_DIR=TARGET, PSXGPU_LIB_DIR=os.path.dirname(ARCHIVE))
    command, *rest = words
    return subprocess.run(['cargo', command, '--offline', '--quiet', *rest], cwd=folder, env=environment,
                          capture_output=True, text=True)


@functools.lru_cache(maxsize=None)
def built():
    """Returns the path of the driver."""
    done = cargo('build', '--release', folder=os.path.join(HERE, 'driver'))
    if done.returncode:
        raise AssertionError(done.stderr)
    return os.path.join(TARGET, 'release', 'driver')


def needs_driver():
    """Skips the tests of a module, with a line, if cargo or the library is missing. For `setUpModule`."""
    support.needs('cargo', 'rustc')()
    support.needs_built(ARCHIVE, 'lib')()
    built()


def driver(*words, data=b''):
    """Status, output and first line of error of the driver."""
    done = subprocess.run([built(), *words], input=data, capture_output=True)
    return done.returncode, done.stdout, (done.stderr.decode().splitlines() or [''])[0]
