"""The systems that the kit does not build for, and how the kit's LLVM module is compiled for each.

The modules of the kit are for Linux. The sizes and places of integers and addresses are equal on every system here, so
that a module needs no other change than those of `retarget.py`.
"""
from dataclasses import dataclass
from typing import Dict, List

# The layouts of the kit's own modules, by processor.
KITS_LAYOUTS = {
    'x86_64': 'e-m:e-p270:32:32-p271:32:32-p272:64:64-i64:64-i128:128-f80:128-n8:16:32:64-S128',
    'aarch64': 'e-m:e-p270:32:32-p271:32:32-p272:64:64-i8:8:32-i16:16:32-i64:64-i128:128-n32:64-S128-Fn32',
}
# What the kit passes to its clang, without -mergefunc-use-aliases: neither PE nor Mach-O has aliases of functions.
KITS_FLAGS = ['-ffunction-sections', '-fdata-sections', '-O3']
for option in ('no-trap-after-noreturn', 'trap-unreachable', 'disable-machine-licm', 'disable-postra-machine-licm',
               'sink-common-insts=false'):
    KITS_FLAGS += ['-mllvm', '-' + option]
KITS_FLAGS += ['-Xclang', '-fmerge-functions']
X86_FLAGS = [*KITS_FLAGS, '-march=x86-64-v2']       # the processor of the kit's programs
WASM_FLAGS = ['-O3', '-msimd128', '-mbulk-memory', '-mbulk-memory-opt', '-mnontrapping-fptoint', '-msign-ext']


@dataclass(frozen=True)
class Target:
    """A system. `base` is the processor of the kit's module; `layout`, `triple` and `flags` are those of LLVM."""
    base: str
    triple: str
    layout: str
    flags: List[str]


TARGETS: Dict[str, Target] = {
    'windows-x86_64': Target(
        'x86_64', 'x86_64-pc-windows-gnu',
        'e-m:w-p270:32:32-p271:32:32-p272:64:64-i64:64-i128:128-f80:128-n8:16:32:64-S128', X86_FLAGS),
    'macos-x86_64': Target(
        'x86_64', 'x86_64-apple-macosx11.0.0',
        'e-m:o-p270:32:32-p271:32:32-p272:64:64-i64:64-i128:128-f80:128-n8:16:32:64-S128', X86_FLAGS),
    'macos-arm64': Target(
        'aarch64', 'arm64-apple-macosx11.0.0',
        'e-m:o-p270:32:32-p271:32:32-p272:64:64-i64:64-i128:128-n32:64-S128-Fn32', KITS_FLAGS),
    'wasm64': Target(
        'x86_64', 'wasm64-unknown-unknown',
        'e-m:e-p:64:64-p10:8:8-p20:8:8-i64:64-i128:128-n32:64-S128-ni:1:10:20', WASM_FLAGS),
}
