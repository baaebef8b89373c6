"""Makes wheels: the Python package with the library of a system and the viewer in it.

setuptools and wheel build them (Debian: python3-setuptools, python3-wheel), of a copy of the sources. The same sources,
library and viewer give the same bytes.
"""
import os
import shutil
import subprocess
import sys
import tempfile

from packages.common import PROCESSORS, ROOT, ToolError, epoch, glibc, run, strip

SOURCES = ('pyproject.toml', 'setup.py', 'LICENSE-MIT', 'LICENSE-APACHE')
# By the folder below out/: the library, and the platform of the wheel; for Linux it depends on the library's glibc.
SYSTEMS = {
    '': ('libpsxgpu.so.1', 'x86_64'),
    'aarch64': ('libpsxgpu.so.1', 'aarch64'),
    'macos': ('libpsxgpu.1.dylib', 'macosx_11_0_universal2'),
    'windows': ('psxgpu.dll', 'win_amd64'),
}
VIEWER = 'web/viewer.html'      # packed where it is built
OLDEST = (2, 17)        # the oldest glibc that a platform of manylinux has


def python():
    """Returns a Python that has setuptools and wheel. Raises ToolError if there is none."""
    for path in (sys.executable, '/usr/bin/python3'):
        if subprocess.run([path, '-c', 'import setuptools, wheel'], capture_output=True).returncode == 0:
            return path
    raise ToolError('a wheel needs setuptools and wheel: install python3-setuptools and python3-wheel')


def platform_of(system, library):
    """Returns the platform of a wheel, as its name has it."""
    name = SYSTEMS[system][1]
    if name not in [it.machine for it in PROCESSORS.values()]:
        return name
    oldest = max(OLDEST, tuple(map(int, glibc([library]).split('.'))))
    return 'manylinux_%d_%d_%s' % (*oldest, name)


def copied(folder, system):
    """Copies the sources, the viewer and the library of a system. Returns the library's path."""
    for name in SOURCES:
        shutil.copy(os.path.join(ROOT, name), folder)
    shutil.copytree(os.path.join(ROOT, 'psxgpu'), os.path.join(folder, 'psxgpu'),
                    ignore=shutil.ignore_patterns('__pycache__'))
    if os.path.exists(os.path.join(ROOT, VIEWER)):
        os.mkdir(os.path.join(folder, os.path.dirname(VIEWER)))
        shutil.copy(os.path.join(ROOT, VIEWER), os.path.join(folder, VIEWER))
    name = SYSTEMS[system][0]
    library = shutil.copy(os.path.join(ROOT, 'out', system, name), folder)
    if '.so' in name:
        run([strip(SYSTEMS[system][1]), '--strip-unneeded', library])
    return library


def wheel(folder, system):
    """Writes the wheel of a system, and returns its name."""
    os.makedirs(folder, exist_ok=True)
    with tempfile.TemporaryDirectory() as place:
        library = copied(place, system)
        run([python(), 'setup.py', '-q', 'bdist_wheel', '--plat-name', platform_of(system, library)], cwd=place,
            env=dict(os.environ, PSXGPU_WHEEL_LIBRARY=library, SOURCE_DATE_EPOCH=str(epoch())))
        name, = os.listdir(os.path.join(place, 'dist'))
        shutil.copyfile(os.path.join(place, 'dist', name), os.path.join(folder, name))
    return name
