"""WebAssembly modules with addresses of 32 bits, of object files and C files."""
import os
from typing import Sequence

from systems import lower64, targets, toolchain

STACK_BYTES = 1 << 20
C_FLAGS = ['-std=c99', '-ffreestanding', '-fno-builtin', '-Wall', '-Wextra', '-isystem', toolchain.source('include')]


def compiled(source: str, folder: str) -> str:
    """Compiles a C file that needs no C library. Returns the object file's path."""
    made = os.path.join(folder, os.path.splitext(os.path.basename(source))[0] + '.o')
    wasm64 = targets.TARGETS['wasm64']
    toolchain.clang('--target=' + wasm64.triple, *wasm64.flags, *C_FLAGS, '-c', source, '-o', made)
    return made


def link(name: str, parts: Sequence[str], *words: str) -> None:
    """Links object files into NAME.64.wasm, and makes NAME.wasm of it."""
    wide = name + '.64.wasm'
    # The stack is below the data: a stack that is too deep ends the run and overwrites nothing.
    toolchain.linker('wasm-ld', '-mwasm64', '--gc-sections', '--strip-all', '--stack-first', '-z',
                     'stack-size=%d' % STACK_BYTES, '--export-memory', *words, *parts, '-o', wide)
    lower64.lower(wide, name + '.wasm')
