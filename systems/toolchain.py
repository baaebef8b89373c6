"""The kit's tools, and how they are called: clang, its linkers, llvm-ar."""
import functools
import os
import re
import shutil
import subprocess
import sys
from typing import List, Optional

HERE = os.path.dirname(os.path.abspath(__file__))
ROOT = os.path.dirname(HERE)
OUT = os.path.join(ROOT, 'out')
MODULES = os.path.join(OUT, 'modules')
STRICT = ['-std=c99', '-O2', '-Wall', '-Wextra', '-pedantic']
SONAME_VERSION = '1'


def out(*names: str) -> str:
    """Returns a path below out/, and makes its folder."""
    path = os.path.join(OUT, *names)
    os.makedirs(os.path.dirname(path), exist_ok=True)
    return path


def source(*names: str) -> str:
    """Returns a path below systems/src/."""
    return os.path.join(HERE, 'src', *names)


def module(name: str, processor: str, ending: str) -> str:
    """Returns the path of what `keep_module` made: of `psxgpu_tool` or `psxgpu_c`, for `x86_64` or `aarch64`."""
    return out('modules', '%s-%s%s' % (name, processor, ending))


@functools.lru_cache(maxsize=None)
def kit() -> str:
    """Returns the kit's folder: that of the page that `rt doc` names."""
    if not shutil.which('rt'):
        sys.exit('systems: there is no kit: put its `rt` on the path')
    done = subprocess.run(['rt', 'doc'], capture_output=True, text=True, check=True)
    return os.path.dirname(done.stdout.strip())


def tool(name: str) -> str:
    """Returns the path of a program of the kit's toolchain."""
    return os.path.join(kit(), 'toolchain', 'bin', name)


def run(*words: str, executable: Optional[str] = None) -> None:
    """Prints a command and runs it. Ends this program if it fails. `executable`: the file, if it is not words[0]."""
    print('+', ' '.join(os.path.relpath(word) if os.path.isabs(word) else word for word in words), flush=True)
    status = subprocess.run(words, executable=executable).returncode
    if status:
        sys.exit('systems: %s ended with status %d' % (os.path.basename(words[0]), status))


def clang(*words: str) -> None:
    """Runs the kit's clang."""
    run(tool('clang'), *words)


def linker(name: str, *words: str) -> None:
    """Runs a linker of the kit: `wasm-ld` or `ld64.lld`. All are one program, which acts by the name it is called."""
    run(name, *words, executable=tool('ld.lld'))


def archive(path: str, *parts: str) -> None:
    """Makes a static library of object files, without times and owners in it."""
    if os.path.exists(path):
        os.remove(path)
    run(tool('llvm-ar'), 'rcsD', path, *parts)


# The calls that c/text.c and c/play_to.c define.
CALLS_IN_C = ('psxgpu_line', 'psxgpu_play_to', 'psxgpu_text', 'psxgpu_version')


def declared(kinds: str) -> List[str]:
    """Returns the names of the calls in c/psxgpu.h that return one of these; `kinds` is a pattern."""
    with open(os.path.join(ROOT, 'c', 'psxgpu.h'), encoding='utf-8') as file:
        return sorted(set(re.findall(r'(?m)^(?:%s)(psxgpu_\w+)\(' % kinds, file.read())))


def calls() -> List[str]:
    """Returns the names of the proved library's calls: all but those that a file of `c/` defines."""
    return [name for name in exports() if name not in CALLS_IN_C]


def exports() -> List[str]:
    """Returns the names of all calls of the library, those in C among them."""
    return declared(r'(?!typedef\b)\w[\w ]*[ *]')


def library_parts() -> List[str]:
    """Returns the C files of the library, without c/heap.c: what that does is in the module (src/heap.ll)."""
    paths = (os.path.join(ROOT, 'c', name) for name in ('play_to.c', 'text.c'))
    return [path for path in paths if os.path.exists(path)]
