"""Adds the library to the package, where it is built (`make lib`): then `psxgpu.machine` needs nothing else, and the
wheel is one for this machine's kind. Adds the viewer, where it is built (`make web`). PSXGPU_WHEEL_LIBRARY names the
library of another system (packages/wheels.py). The rest is in pyproject.toml."""
import os
import shutil

from setuptools import setup
from setuptools.command.build_py import build_py
from setuptools.dist import Distribution

try:
    from setuptools.command.bdist_wheel import bdist_wheel      # setuptools 70.1 and later
except ImportError:
    try:
        from wheel.bdist_wheel import bdist_wheel
    except ImportError:
        bdist_wheel = None

LIBRARY = os.environ.get('PSXGPU_WHEEL_LIBRARY', 'out/libpsxgpu.so.1')
VIEWER = 'web/viewer.html'


class Build(build_py):
    """Copies the library and the viewer into the package."""

    def run(self):
        super().run()
        if os.path.exists(LIBRARY):
            shutil.copy(LIBRARY, os.path.join(self.build_lib, 'psxgpu'))
        if os.path.exists(VIEWER):
            shutil.copy(VIEWER, os.path.join(self.build_lib, 'psxgpu', 'viewing'))


class Package(Distribution):
    """A distribution that is pure only without the library."""

    def has_ext_modules(self):
        return os.path.exists(LIBRARY)


commands = {'build_py': Build}
if bdist_wheel:
    class Wheel(bdist_wheel):
        """A wheel for every Python 3: the library is called by ctypes."""

        def get_tag(self):
            _, _, platform = super().get_tag()
            return 'py3', 'none', platform

    commands['bdist_wheel'] = Wheel

setup(cmdclass=commands, distclass=Package)
