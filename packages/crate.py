"""Makes the crate for Rust: the sources of rust/psxgpu in the last commit, with the licences, as cargo packs them."""
import hashlib
import io
import json
import os
import shutil
import subprocess
import sys
import tarfile
import tempfile

from packages.common import ROOT, epoch, gzipped, run, version, write

LICENCES = ('LICENSE-MIT', 'LICENSE-APACHE')


def plain(entry):
    """A tar entry that says nothing of this machine."""
    entry.uid = entry.gid = 0
    entry.uname = entry.gname = ''
    entry.mtime, entry.mode = epoch(), 0o644
    return entry


def repacked(path):
    """Returns the bytes of a crate, of which names and times do not depend on cargo."""
    out = io.BytesIO()
    with tarfile.open(path) as made, tarfile.open(fileobj=out, mode='w', format=tarfile.GNU_FORMAT) as tar:
        for entry in sorted(made.getmembers(), key=lambda entry: entry.name):
            tar.addfile(plain(entry), made.extractfile(entry))
    return gzipped(out.getvalue())


def crate():
    """Returns the name of the crate and its bytes, or None if cargo is not installed."""
    if not shutil.which('cargo'):
        print('packages: no crate is made: cargo is not installed', file=sys.stderr)
        return None
    with tempfile.TemporaryDirectory() as place:
        archive = run(['git', '-C', ROOT, 'archive', '--format=tar', 'HEAD:rust/psxgpu'])
        subprocess.run(['tar', '-x', '-C', place], input=archive, check=True)
        for name in LICENCES:
            shutil.copy(os.path.join(ROOT, name), place)
        run(['cargo', 'package', '--offline', '--no-verify', '--allow-dirty', '--quiet'], cwd=place,
            env=dict(os.environ, CARGO_TARGET_DIR=os.path.join(place, 'target')))
        name = 'psxgpu-%s.crate' % version()
        return name, repacked(os.path.join(place, 'target', 'package', name))


def crates(folder):
    """Writes the crate, if cargo is installed. Returns its name in a list."""
    made = crate()
    return [write(folder, *made)] if made else []


def install(registry):
    """Puts the crate into a folder that cargo takes for a registry, as Debian's is. Returns whether there is one."""
    made = crate()
    if not made:
        return False
    name, data = made
    with tarfile.open(fileobj=io.BytesIO(data)) as tar:
        tar.extractall(registry)
    sums = {'package': hashlib.sha256(data).hexdigest(), 'files': {}}
    write(os.path.join(registry, os.path.splitext(name)[0]), '.cargo-checksum.json', json.dumps(sums).encode())
    return True
