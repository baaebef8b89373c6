"""Makes the zips for systems other than Linux: the program, the library, and what a user reads and looks at.

    psxgpu-tool-VERSION-NAME/       the program, the libraries
                            c/      the headers and an example
                            lib/    what tells pkg-config and CMake where they are (macOS and Windows)
                            docs/   the documents; README.md and the licences are beside this folder
                            examples/, bench/, selftest/, viewer.html

`make macos` (`windows`, `wasi`) builds what is packed. Names are in order and all times are those of `epoch`, so that
the same files give the same bytes.
"""
import glob
import os
import time
import zipfile

from packages.common import NAME, ROOT, ToolError, epoch, version
from packages.for_compilers import texts

# By the folder below out/: the name of the zip, what runs, and what is linked to.
SYSTEMS = {
    'macos': ('macos-universal', ['psxgpu_tool'], ['libpsxgpu.1.dylib', 'libpsxgpu.a']),
    'windows': ('windows-x86_64', ['psxgpu_tool.exe'], ['psxgpu.dll', 'libpsxgpu.dll.a', 'psxgpu.def']),
    'wasi': ('wasi', ['psxgpu_tool.wasm'], []),
}
# What every zip has, by its folder there.
COMMON = {
    '': ['*.md', 'LICENSE-MIT', 'LICENSE-APACHE', 'web/viewer.html'],
    'docs': ['docs/*'],
    'bench': ['bench/*.md', 'bench/*.py'],
    'examples': ['examples/*.capture', 'examples/*.capture.gz', 'examples/*.png', 'examples/*.txt', 'examples/player.*',
                 'examples/toy_gpu.*'],
    'c': ['c/psxgpu.h', 'c/example.c', 'recorder/psxgpu_capture.h'],
    'selftest': ['psxgpu/selftest/*'],
}
# The viewer is packed where it is built.
OPTIONAL = 'web/viewer.html'


def found(pattern):
    """Returns the files of a pattern, in order. Raises ToolError if there is none."""
    paths = sorted(path for path in glob.glob(os.path.join(ROOT, pattern)) if os.path.isfile(path))
    if not paths and pattern != OPTIONAL:
        raise ToolError('%s: it is not there: build it first' % pattern)
    return paths


def content(system):
    """Returns what a zip has: by the name in it the path of the file, and whether it is a program."""
    _, programs, libraries = SYSTEMS[system]
    files = {}
    for name in programs + libraries:
        files[name] = found(os.path.join('out', system, name))[0], name in programs
    for folder, patterns in COMMON.items():
        for path in (path for pattern in patterns for path in found(pattern)):
            files[os.path.join(folder, os.path.basename(path))] = path, os.access(path, os.X_OK)
    return files


def zipped(folder, system):
    """Writes the zip of a system, and returns its name."""
    top = '%s-%s-%s' % (NAME, version(), SYSTEMS[system][0])
    os.makedirs(folder, exist_ok=True)
    files = {}
    for name, (path, is_program) in content(system).items():
        with open(path, 'rb') as file:
            files[name] = file.read(), is_program
    if SYSTEMS[system][2]:
        files.update({name: (text.encode(), False) for name, text in texts('lib', 'c', '.').items()})
    with zipfile.ZipFile(os.path.join(folder, top + '.zip'), 'w', zipfile.ZIP_DEFLATED) as made:
        for name, (data, is_program) in sorted(files.items()):
            entry = zipfile.ZipInfo('%s/%s' % (top, name), time.gmtime(epoch())[:6])
            entry.create_system = 3     # the modes are those of Unix
            entry.external_attr = (0o100755 if is_program else 0o100644) << 16
            made.writestr(entry, data, zipfile.ZIP_DEFLATED, 9)
    return top + '.zip'
