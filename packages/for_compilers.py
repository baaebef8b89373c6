"""What tells compilers where the library is: psxgpu.pc for pkg-config, psxgpuConfig.cmake for CMake.

    python3 -m packages.for_compilers TOP LIBRARIES

writes them below the folder TOP, where the libraries are in TOP/LIBRARIES and the headers in TOP/include: `make
install-library`. All paths in them are relative, so that the tree may be moved.
"""
import os
import posixpath
import sys
from typing import Dict

from packages.common import text_of, version, write

TEMPLATES = {'pkgconfig/psxgpu.pc': 'psxgpu.pc.in',
             'cmake/psxgpu/psxgpuConfig.cmake': 'psxgpuConfig.cmake.in',
             'cmake/psxgpu/psxgpuConfigVersion.cmake': 'psxgpuConfigVersion.cmake.in'}


def texts(folder: str, include: str, libraries: str) -> Dict[str, str]:
    """Returns the text of each file by its path: they lie below `folder`. All paths are relative to one top."""
    found = {}
    for name, template in TEMPLATES.items():
        path = posixpath.join(folder, name)
        here = posixpath.dirname(path)
        prefix = posixpath.relpath('.', here)
        words = {'@PREFIX@': prefix, '@VERSION@': version(), '@MAJOR@': version().split('.', maxsplit=1)[0],
                 '@INCLUDE@': include if name.endswith('.pc') else posixpath.relpath(include, here),
                 '@LIBRARIES@': libraries if name.endswith('.pc') else posixpath.relpath(libraries, here)}
        text = text_of('c', template)
        for word, value in words.items():
            text = text.replace(word, value)
        found[path] = text
    return found


if __name__ == '__main__':
    if len(sys.argv) != 3:
        sys.exit(__doc__)
    for place, said in texts(sys.argv[2], 'include', sys.argv[2]).items():
        write(os.path.join(sys.argv[1], os.path.dirname(place)), os.path.basename(place), said.encode())
