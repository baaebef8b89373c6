"""Makes Debian's packages: the program with its tools and, where the library is built, the library, what a C compiler
needs of it and, where cargo is installed, the crate for Rust."""
import hashlib
import os
import re
import shutil
import tempfile
import textwrap
import time

from packages import crate
from packages.common import NAME, ToolError, entries, epoch, glibc, gzipped, processor, run, stage, strip, text_of, version, write

LIBRARY, FOR_C, FOR_RUST = 'libpsxgpu%s', 'libpsxgpu-dev', 'librust-psxgpu-dev'
# Where Debian has the sources of crates: cargo takes them by `directory` in its settings.
REGISTRY = 'usr/share/cargo/registry'
TRIGGERS = 'activate-noawait ldconfig\n'
# Where the loader of glibc finds the library for a processor of level x86-64-v3 by itself.
NEWER = 'glibc-hwcaps/x86-64-v3'


def wrapped(words):
    """The paragraphs and points of a part of CHANGELOG.md, as narrow as Debian wants them."""
    for part in re.split(r'\n\n|\n(?=- )', words.strip()):
        yield textwrap.fill(re.sub('^- ', '', part), 76, initial_indent='  * ', subsequent_indent='    ')


def debian_changelog():
    maintainer = re.search('^Maintainer: (.*)', text_of('packages/debian/psxgpu-tool.control'), re.M)[1]
    parts = []
    for number, day, words in entries():
        when = time.strftime('%a, %d %b %Y 00:00:00 +0000', time.strptime(day, '%Y-%m-%d'))
        parts.append('%s (%s) unstable; urgency=medium\n\n%s\n\n -- %s  %s\n'
                     % (NAME, number, '\n'.join(wrapped(words)), maintainer, when))
    return '\n'.join(parts)


def copyright_text():
    lines = text_of('LICENSE-MIT').split('\n\n', 2)[2].strip().splitlines()
    return text_of('packages/debian/copyright').replace('@MIT@', '\n'.join(' ' + (line or '.') for line in lines))


def add_documents(place, name):
    """What Debian wants in each package."""
    doc = os.path.join(place, 'usr/share/doc', name)
    write(doc, 'copyright', copyright_text().encode())
    write(doc, 'changelog.gz', gzipped(debian_changelog().encode()))


def as_debian(place):
    """Moves what Debian keeps elsewhere."""
    share = os.path.join(place, 'usr/share')
    shutil.move(os.path.join(share, 'zsh/site-functions'), os.path.join(share, 'zsh/vendor-completions'))
    doc = os.path.join(share, 'doc', NAME)
    os.makedirs(doc)
    for name in ('README.md', 'docs', 'examples'):
        os.symlink('../../%s/%s' % (NAME, name), os.path.join(doc, name))
    for folder, _, names in os.walk(os.path.join(share, 'man')):
        for name in names:
            with open(os.path.join(folder, name), 'rb') as file:
                write(folder, name + '.gz', gzipped(file.read()))
            os.remove(os.path.join(folder, name))
    run([strip(), '--strip-unneeded', os.path.join(place, 'usr/bin/psxgpu_tool')])


def multiarch():
    """Returns where Debian has the libraries of a processor, below /usr."""
    return 'lib/%s-linux-gnu' % processor().machine


def symbols(library):
    """Returns what tells Debian from which version on the library has each call."""
    major = version().split('.')[0]
    said = run(['readelf', '--dyn-syms', '--wide', library]).decode()
    names = sorted(re.findall(r'\d+: [0-9a-f]+ +\d+ +FUNC +GLOBAL +DEFAULT +\d+ (psxgpu_\w+@)@(\w+)$', said, re.M))
    if not names:
        raise ToolError('%s: no calls with versions' % library)
    return 'libpsxgpu.so.%s libpsxgpu%s #MINVER#\n%s' % (
        major, major, ''.join(' %s%s %s.0.0\n' % (*name, major) for name in names))


def move_library(place, targets):
    """Takes the library out of the tree, if it was built. Returns the packages with something in them."""
    lib = os.path.join(place, 'usr', multiarch())
    if not os.path.exists(os.path.join(lib, 'libpsxgpu.a')):
        return []
    major = version().split('.')[0]
    soname = 'libpsxgpu.so.' + major
    run([strip(), '--strip-unneeded', os.path.join(lib, soname)])
    run([strip(), '--strip-debug', '--enable-deterministic-archives', os.path.join(lib, 'libpsxgpu.a')])
    os.chmod(os.path.join(lib, soname), 0o644)
    newer = os.path.join(lib, NEWER, soname)
    if os.path.exists(newer):
        run([strip(), '--strip-unneeded', newer])
        os.chmod(newer, 0o644)
    for_programs = {soname, NEWER.split('/')[0]} & {*os.listdir(lib)}
    for names, target in ((for_programs, targets[0]), ({*os.listdir(lib)} - for_programs, targets[1])):
        os.makedirs(os.path.join(target, 'usr', multiarch()))
        for it in sorted(names):
            shutil.move(os.path.join(lib, it), os.path.join(target, 'usr', multiarch(), it))
    os.rmdir(lib)
    shutil.move(os.path.join(place, 'usr/include'), os.path.join(targets[1], 'usr/include'))
    write(os.path.join(targets[0], 'DEBIAN'), 'shlibs', b'libpsxgpu %s libpsxgpu%s (>= %s)\n'
          % (major.encode(), major.encode(), version().encode()))
    write(os.path.join(targets[0], 'DEBIAN'), 'symbols',
          symbols(os.path.join(targets[0], 'usr', multiarch(), soname)).encode())
    write(os.path.join(targets[0], 'DEBIAN'), 'triggers', TRIGGERS.encode())
    return [LIBRARY % major, FOR_C]


def files_of(place):
    found = (os.path.join(folder, name) for folder, _, names in os.walk(place) for name in names)
    return sorted(path for path in found if not os.path.islink(path) and not path.startswith(place + '/DEBIAN'))


def control(place, name):
    """The package's own data: what it is, and the sums of its files."""
    files = files_of(place)
    size = sum((os.path.getsize(path) + 1023) // 1024 for path in files)
    words = {'@VERSION@': version(), '@SIZE@': str(size), '@MAJOR@': version().split('.')[0],
             '@ARCH@': processor().debian, '@NEEDS@': processor().needs,
             '@GLIBC@': glibc(path for path in files if '/usr/bin/' in path or '.so' in path)}
    text = text_of('packages/debian', re.sub(r'\d+$', '', name) + '.control')
    sums = ''
    for path in files:
        with open(path, 'rb') as file:
            sums += '%s  %s\n' % (hashlib.md5(file.read()).hexdigest(), os.path.relpath(path, place))
    write(os.path.join(place, 'DEBIAN'), 'control', re.sub('@[A-Z]+@', lambda it: words[it[0]], text).encode())
    write(os.path.join(place, 'DEBIAN'), 'md5sums', sums.encode())


def pack(place, name, folder):
    """Writes one package."""
    file = '%s_%s_%s.deb' % (name, version(), processor().debian)
    add_documents(place, name)
    control(place, name)
    os.makedirs(folder, exist_ok=True)
    run(['dpkg-deb', '--root-owner-group', '-Zxz', '--build', place, os.path.join(folder, file)],
        env=dict(os.environ, SOURCE_DATE_EPOCH=str(epoch())))
    return file


def debs(folder):
    """Makes the packages; their names."""
    for tool in ('dpkg-deb', strip()):
        if not shutil.which(tool):
            raise ToolError('a .deb needs ' + tool)
    with tempfile.TemporaryDirectory() as top:
        places = [os.path.join(top, name) for name in ('tool', 'library', 'dev', 'rust')]
        for place in places:
            os.mkdir(place, 0o755)
        stage(places[0], '/usr', multiarch())
        as_debian(places[0])
        names = [NAME] + move_library(places[0], places[1:])
        if FOR_C in names and crate.install(os.path.join(places[3], REGISTRY)):
            names.append(FOR_RUST)
        return [pack(place, name, folder) for place, name in zip(places, names)]
