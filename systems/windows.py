#!/usr/bin/env python3
"""Links the program and the library for Windows on x86-64: python3 -m systems.windows

`make windows` calls it: psxgpu_tool.o and psxgpu_c.o are in out/windows, compiled of the kit's modules, which are
proved for Linux. It makes `psxgpu_tool.exe`, `psxgpu.dll`, its import library for MinGW (`libpsxgpu.dll.a`), and
`psxgpu.def`, of which `lib /def:psxgpu.def /machine:x64` makes the one for MSVC. All need msvcrt.dll and kernel32.dll
alone. Needs MinGW (Debian: gcc-mingw-w64-x86-64).
"""
import sys
from typing import List

from systems import toolchain
from systems.toolchain import exports, library_parts, out, run, source

CC = 'x86_64-w64-mingw32-gcc'
FOLDER = 'windows'
PARTS = ('os_windows', 'os_processor', 'os_texts', 'os_words')
# The same sources give the same bytes: no times, and no address made of the name of the output's folder.
LINK = ['-static', '-s', '-Wl,--gc-sections,--no-insert-timestamp,--disable-auto-image-base']


def program() -> None:
    """Makes psxgpu_tool.exe. Its C files are compiled for any x86-64: they look at the processor first."""
    parts: List[str] = [source(name + '.c') for name in PARTS]
    run(CC, *toolchain.STRICT, '-municode', '-o', out(FOLDER, 'psxgpu_tool.exe'), out(FOLDER, 'psxgpu_tool.o'), *parts,
        *LINK)


def library() -> None:
    """Makes psxgpu.dll, its import library and its list of exports."""
    with open(out(FOLDER, 'psxgpu.def'), 'w', encoding='utf-8') as file:
        file.write('LIBRARY psxgpu.dll\nEXPORTS\n' + ''.join('    %s\n' % call for call in exports()))
    parts = [out(FOLDER, 'psxgpu_c.o'), *library_parts(), out(FOLDER, 'psxgpu.def')]
    run(CC, *toolchain.STRICT, '-shared', '-o', out(FOLDER, 'psxgpu.dll'), *parts,
        '-Wl,--out-implib,' + out(FOLDER, 'libpsxgpu.dll.a'), *LINK)


if __name__ == '__main__':
    if len(sys.argv) != 1:
        sys.exit(__doc__)
    program()
    library()
