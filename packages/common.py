"""What the packages share: their version and time, and how files are gathered, packed and written."""
import calendar
import gzip
import io
import os
import platform
import re
import subprocess
import time
from typing import NamedTuple

ROOT = os.path.dirname(os.path.dirname(os.path.abspath(__file__)))
PROGRAM = os.environ.get('PLAYER') or os.path.join(ROOT, 'crates/psxgpu_tool/out/psxgpu_tool')
ENTRY = re.compile(r'^## (\S+) \((\d{4}-\d\d-\d\d)\)\n\n(.*?)(?=^## |\Z)', re.S | re.M)
NAME = 'psxgpu-tool'


class ToolError(Exception):
    """Why no package is made, in one line."""


class Processor(NamedTuple):
    """A processor of Linux: its name as `uname -m` and Debian have it, and what the packages say of those that serve."""
    machine: str
    debian: str
    needs: str


# By the number of the processor in the head of an ELF file.
PROCESSORS = {
    62: Processor('x86_64', 'amd64',
                  '\n .\n The program needs a processor of x86-64-v2 (with SSE4.2), as all since 2009.'),
    183: Processor('aarch64', 'arm64', ''),
}


def processor():
    """Returns what the program was built for."""
    with open(PROGRAM, 'rb') as file:
        head = file.read(20)
    number = int.from_bytes(head[18:20], 'little')
    if head[:4] != b'\x7fELF' or number not in PROCESSORS:
        raise ToolError('%s: not a program for Linux on x86-64 or arm64' % PROGRAM)
    return PROCESSORS[number]


def strip(machine=None):
    """Returns the name of the strip for a processor: the program's, or that of this name."""
    machine = machine or processor().machine
    return 'strip' if machine == platform.machine() else machine + '-linux-gnu-strip'


def text_of(*names):
    with open(os.path.join(ROOT, *names), encoding='utf-8') as file:
        return file.read()


def version():
    return text_of('VERSION').strip()


def entries():
    """Version, day and text of each part of CHANGELOG.md, the newest first."""
    found = ENTRY.findall(text_of('CHANGELOG.md'))
    if not found or found[0][0] != version():
        raise ToolError('CHANGELOG.md does not begin with version %s' % version())
    return found


def epoch():
    """The time that stands in packages."""
    given = os.environ.get('SOURCE_DATE_EPOCH')
    return int(given) if given else calendar.timegm(time.strptime(entries()[0][1], '%Y-%m-%d'))


def run(words, **more):
    done = subprocess.run(words, stdout=subprocess.PIPE, stderr=subprocess.PIPE, **more)
    if done.returncode:
        lines = done.stderr.decode(errors='replace').strip().splitlines()
        raise ToolError('%s: %s' % (' '.join(words[:2]), lines[-1] if lines else 'status %d' % done.returncode))
    return done.stdout


def stage(folder, prefix, libraries='lib'):
    """Installs into a folder, with modes that do not depend on who does it. `libraries`: their folder there."""
    old = os.umask(0o022)
    try:
        run(['make', '-s', '-C', ROOT, 'install', 'DESTDIR=' + folder, 'PREFIX=' + prefix,
             'ARCH=' + processor().machine, 'PLAYER=' + PROGRAM, 'LIBDIR=' + libraries])
    finally:
        os.umask(old)


def glibc(paths):
    """The oldest glibc that programs and libraries run with, by the names of versions that stand in them."""
    found = [(2, 0)]
    for path in paths:
        with open(path, 'rb') as file:
            names = re.findall(rb'GLIBC_(\d+)\.(\d+)(?:\.\d+)?\0', file.read())
        found += [(int(major), int(minor)) for major, minor in names]
    return '%d.%d' % max(found)


def gzipped(data):
    out = io.BytesIO()
    with gzip.GzipFile(fileobj=out, mode='wb', compresslevel=9, mtime=epoch()) as file:
        file.write(data)
    return out.getvalue()


def write(folder, name, data):
    os.makedirs(folder, exist_ok=True)
    with open(os.path.join(folder, name), 'wb') as file:
        file.write(data)
    return name
