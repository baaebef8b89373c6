#!/usr/bin/env python3
"""Builds a crate with the kit for Linux, and keeps the LLVM module that the kit compiles.

    python3 -m systems.keep_module psxgpu_tool|psxgpu_c x86_64|aarch64

The build is the kit's own, `rattle build --target`, over the libraries that `proving.progress` built: a function that is
proved is not proved again. It makes three files in out/modules:

    CRATE-PROCESSOR.o (program) or .a (library)     what the kit made
    CRATE-PROCESSOR.bc                              the module, from which `retarget.py` makes other systems' code
    CRATE-PROCESSOR.line                            the verdict: what is proved, for which target
"""
import importlib.util
import os
import re
import subprocess
import sys
import tempfile
from typing import Any, List

from proving.plan import jobs_alone
from systems.toolchain import MODULES, ROOT, kit, module, tool

CRATES = ('psxgpu_tool', 'psxgpu_c')
PROCESSORS = ('x86_64', 'aarch64')
# A clang that copies the module that it is to compile.
KEEPER = '''#!/bin/sh
for word; do case $word in *.bc) cp "$word" '%s';; esac; done
exec '%s' "$@"
'''


def lay_out(folder: str, kept: str) -> None:
    """Lays out the kit's toolchain in a folder, with a clang that copies its module to `kept`."""
    os.symlink(os.path.join(kit(), 'toolchain', 'lib'), os.path.join(folder, 'lib'))
    os.mkdir(os.path.join(folder, 'bin'))
    for name in os.listdir(tool('')):
        if name != 'clang':
            os.symlink(tool(name), os.path.join(folder, 'bin', name))
    keeper = os.path.join(folder, 'bin', 'clang')
    with open(keeper, 'w', encoding='utf-8') as file:
        file.write(KEEPER % (kept, tool('clang')))
    os.chmod(keeper, 0o755)


def rtlib() -> Any:
    """Returns the kit's module for its command `rt`."""
    place = importlib.util.spec_from_file_location('rtlib', os.path.join(kit(), 'bin', 'rtlib.py'))
    if place is None or place.loader is None:
        sys.exit('keep_module.py: the kit has no bin/rtlib.py')
    found = importlib.util.module_from_spec(place)
    place.loader.exec_module(found)
    return found


def words_of(crate: str, folder: str, processor: str, made: str) -> List[str]:
    """Returns the command that builds a crate with the toolchain of a folder."""
    rt = rtlib()
    jobs = jobs_alone(crate, len(os.sched_getaffinity(0)))
    words = rt.Crate(os.path.join(ROOT, 'crates', crate), ROOT, {}).words(['--jobs', str(jobs)])
    return [rt.RATTLE, 'build', *words, '--target', processor + '-unknown-linux-gnu', '--toolchain', folder,
            '--backend', 'llvm', *rt.KEPT, '-o', made]


def keep(crate: str, processor: str) -> None:
    """Builds a crate and keeps its module. Ends this program if the crate is not proved; then no file is new."""
    is_new = not os.path.isdir(os.path.join(ROOT, 'crates', crate, 'out', 'incremental'))
    print('The kit compiles %s for %s: %s.' % (crate, processor, 'first it proves the crate, in some minutes' if is_new
                                              else 'about a minute'), flush=True)
    made, kept = module(crate, processor, '.o' if crate == 'psxgpu_tool' else '.a'), module(crate, processor, '.bc')
    with tempfile.TemporaryDirectory(dir=MODULES) as folder:
        part = os.path.join(folder, 'module.bc')
        lay_out(folder, part)
        words = words_of(crate, folder, processor, made)
        done = subprocess.run(words, cwd=os.path.join(ROOT, 'crates', crate), stdout=subprocess.PIPE,
                              stderr=subprocess.STDOUT, text=True)
        verdict = re.search('(?m)^logic=proved .*\n', done.stdout)
        if done.returncode or not verdict:
            sys.exit('%skeep_module.py: %s is not built for %s: rattle ended with status %d'
                     % (done.stdout, crate, processor, done.returncode))
        with open(module(crate, processor, '.line'), 'w', encoding='utf-8') as file:
            file.write(verdict[0])
        os.replace(part, kept)
    print(verdict[0], end='')


if __name__ == '__main__':
    if len(sys.argv) != 3 or sys.argv[1] not in CRATES or sys.argv[2] not in PROCESSORS:
        sys.exit(__doc__)
    keep(*sys.argv[1:])
