#!/usr/bin/env python3
"""Makes the packages.

    python3 -m packages.build dist [FOLDER]         sources, the built program, the crate, the .debs, and SHA-256 sums
    python3 -m packages.build deb [FOLDER]          the .debs alone
    python3 -m packages.build dist-all [FOLDER]     the same as dist, and the packages of all other systems

The folder is dist/ if none is named. What is packed is what `make install` installs; the sources are those of the last
commit. The same commit and the same program make the same bytes: names are in order, owners are root, and all times are
the day of the version in CHANGELOG.md, or SOURCE_DATE_EPOCH.
"""
import hashlib
import io
import os
import sys
import tarfile
import tempfile

from packages.common import NAME, PROGRAM, ROOT, ToolError, epoch, glibc, gzipped, processor, run, stage, version, write
from packages.crate import crates
from packages.debian import debs
from packages.wheels import SYSTEMS as WHEELS, wheel
from packages.zips import SYSTEMS as ZIPS, zipped


def plain(entry):
    """A tar entry that says nothing of this machine."""
    entry.uid = entry.gid = 0
    entry.uname = entry.gname = 'root'
    entry.mtime = epoch()
    return entry


def sources(folder):
    name = '%s-%s' % (NAME, version())
    if run(['git', '-C', ROOT, 'status', '--porcelain']):
        print('packages: what is not committed is not among the sources', file=sys.stderr)
    data = run(['git', '-C', ROOT, 'archive', '--format=tar', '--prefix=%s/' % name, 'HEAD'])
    return [write(folder, name + '.tar.gz', gzipped(data))]


def built(folder):
    """The installed tree as a tarball, which is unpacked where it is wanted."""
    name = '%s-%s-%s-linux-glibc%s' % (NAME, version(), processor().machine, glibc([PROGRAM]))
    with tempfile.TemporaryDirectory() as place:
        stage(place, '/')
        out = io.BytesIO()
        with tarfile.open(fileobj=out, mode='w', format=tarfile.GNU_FORMAT) as tar:
            tar.add(place, name, filter=plain)
    return [write(folder, name + '.tar.gz', gzipped(out.getvalue()))]


def sums(folder, names):
    lines = []
    for name in names:
        with open(os.path.join(folder, name), 'rb') as file:
            lines.append('%s  %s\n' % (hashlib.sha256(file.read()).hexdigest(), name))
    return write(folder, 'SHA256SUMS', ''.join(lines).encode())


def others(folder):
    """The packages for Linux on arm64, the zips and the wheels."""
    arm64 = os.path.join(ROOT, 'out/aarch64/psxgpu_tool')
    said = run([sys.executable, '-m', 'packages.build', 'built', os.path.abspath(folder)], cwd=ROOT,
               env=dict(os.environ, PLAYER=arm64))
    names = [os.path.basename(line) for line in said.decode().splitlines()]
    return names + [zipped(folder, system) for system in ZIPS] + [wheel(folder, system) for system in WHEELS]


# `built` is for another processor, whose program is PLAYER.
STEPS = {'dist': (sources, built, crates, debs), 'deb': (debs,), 'built': (built, debs),
         'dist-all': (sources, built, crates, debs, others)}


def main(what, folder='dist'):
    os.umask(0o022)
    names = [name for make in STEPS[what] for name in make(folder)]
    if 'dist' in what:
        names.append(sums(folder, names))
    for name in names:
        print(os.path.join(folder, name))


if __name__ == '__main__':
    if len(sys.argv) not in (2, 3) or sys.argv[1] not in STEPS:
        sys.exit(__doc__)
    try:
        main(*sys.argv[1:])
    except (ToolError, OSError) as why:
        print('packages: %s' % why, file=sys.stderr)
        sys.exit(2)
