#!/usr/bin/env python3
"""Links the program and the library for macOS 11 and later, on arm64 and x86-64: python3 -m systems.macos

Each file of out/macos has the code for both processors: `psxgpu_tool`, `libpsxgpu.a`, `libpsxgpu.1.dylib`. `make macos`
compiles the modules of both processors first (retarget.py). The kit's linker signs code for arm64 ad hoc. There is no
SDK: src/macos/ has the declarations that are used. Needs llvm-lipo (Debian: llvm).
"""
import os
import shutil
import subprocess
import sys
from typing import Dict, List

from systems import toolchain
from systems.toolchain import archive, clang, exports, library_parts, linker, out, run, source

PROCESSORS = ('arm64', 'x86_64')
MACOS = '11.0.0'
DYLIB = 'libpsxgpu.%s.dylib' % toolchain.SONAME_VERSION
PARTS = ('os_posix', 'os_processor', 'os_texts', 'os_words')


def lipo() -> str:
    """Returns the name of llvm-lipo, of the newest version here. Ends this program if there is none."""
    for name in ('llvm-lipo', *('llvm-lipo-%d' % version for version in range(30, 13, -1))):
        if shutil.which(name):
            return name
    sys.exit('macos.py: llvm-lipo is missing: install llvm')


def compiled(path: str, arch: str, folder: str) -> str:
    """Compiles a C file. Returns the object file. Without -m it is for any processor of its kind."""
    made = out(folder, os.path.splitext(os.path.basename(path))[0] + '.o')
    headers = ['-ffreestanding', '-isystem', source('include'), '-isystem', source('macos', 'include')]
    target = '--target=%s-apple-macosx%s' % (arch, MACOS)
    clang(target, *toolchain.STRICT, *headers, '-c', path, '-o', made)
    return made


def program(arch: str, folder: str, common: List[str]) -> str:
    """Links the program for a processor. Returns its path."""
    parts = [compiled(source(name + '.c'), arch, folder) for name in PARTS]
    made = out(folder, 'psxgpu_tool')
    linker('ld64.lld', *common, made + '.o', *parts, '-o', made)
    return made


def library(arch: str, folder: str, common: List[str]) -> List[str]:
    """Makes the static and the shared library for a processor. Returns their paths."""
    parts = [out(folder, 'psxgpu_c.o'), *(compiled(path, arch, folder) for path in library_parts())]
    static, shared = out(folder, 'libpsxgpu.a'), out(folder, DYLIB)
    archive(static, *parts)
    with open(out(folder, 'exports'), 'w', encoding='utf-8') as file:
        file.write(''.join('_%s\n' % call for call in exports()))
    linker('ld64.lld', *common, '-dylib', '-install_name', '@rpath/' + DYLIB, '-exported_symbols_list',
           out(folder, 'exports'), *parts, '-o', shared)
    return [static, shared]


def main() -> None:
    """Makes the files of each processor, and joins them."""
    made: Dict[str, List[str]] = {}
    for arch in PROCESSORS:
        folder = os.path.join('macos', arch)
        common = ['-arch', arch, '-platform_version', 'macos', MACOS, MACOS, '-dead_strip', '-S', '-x',
                  source('macos', 'libSystem.tbd')]
        for path in (program(arch, folder, common), *library(arch, folder, common)):
            made.setdefault(os.path.basename(path), []).append(path)
    for name, paths in made.items():
        run(lipo(), '-create', *paths, '-output', out('macos', name))


if __name__ == '__main__':
    if len(sys.argv) != 1:
        sys.exit(__doc__)
    try:
        main()
    except (OSError, subprocess.CalledProcessError) as why:
        sys.exit('macos.py: %s' % why)
