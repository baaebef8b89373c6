#!/usr/bin/env python3
"""Compiles a program or a library of the kit for a system that the kit does not know.

    python3 -m systems.retarget MODULE.bc SYSTEM OUT.o

MODULE.bc is what `keep_module.py` kept, for the processor that `targets.py` names for SYSTEM. Its text gets the layout
and the triple of SYSTEM, and these changes:

- attributes of one system or processor are removed;
- a program's calls of Linux become those of src/os.h, and its `main` becomes `rattle_main`, without the part that is
  Linux's (the signal of a broken pipe, the check of the processor);
- the three functions of the heap are part of the module (src/heap.ll);
- for WebAssembly, the one instruction of x86-64 that the machine calls by its name becomes WebAssembly's.

OUT.ll is the text that is compiled.
"""
import os
import re
import subprocess
import sys

from systems import toolchain
from systems.targets import KITS_LAYOUTS, TARGETS

CALLS = {'write': 'os_write', '__write': 'os_write', 'read': 'os_read', 'open': 'os_open', 'close': 'os_close',
         'isatty': 'os_isatty', 'statx': 'os_exists', '__xpg_strerror_r': 'os_strerror', 'main': 'rattle_main'}
OF_LINUX = re.compile(r'(?m)^declare .*@(__sysv_signal|__x86_get_cpuid_feature_leaf|__write)\(.*\n')
OF_A_PROCESSOR = re.compile(r'"(probe-stack|stack-probe-size|target-cpu|target-features)"="[^"]*" *')
FRAME = re.compile(r'"frame-pointer"="[^"]*" *')
SHUFFLE = '@llvm.x86.ssse3.pshuf.b.128'


def part(name: str) -> str:
    """Returns the text of a file of src/."""
    with open(toolchain.source(name), encoding='utf-8') as file:
        return file.read()


def text_of(module: str, processor: str) -> str:
    """Returns a module as text. clang gives a module the layout of its --target, so it is named."""
    words = [toolchain.tool('clang'), '--target=%s-unknown-linux-gnu' % processor, '-x', 'ir', module, '-O0', '-Xclang',
             '-disable-llvm-passes', '-S', '-emit-llvm', '-o', '-']
    return subprocess.run(words, stdout=subprocess.PIPE, text=True, check=True).stdout


def without_declarations(text: str, names: str) -> str:
    """Returns the text without the declarations of functions; `names` is a pattern."""
    return re.sub(r'(?m)^declare .*@(%s)\(.*\n' % names, '', text)


def without_start(text: str) -> str:
    """Returns the text with a `main` that does nothing but call the program's own. A library's text stays as it is."""
    found = re.search(r'(?ms)^define i32 @main\(\).*?^}\n', text)
    if not found:
        return text
    start = re.search(r'call i32 (@"[^"]*main\+start")', found[0])
    if not start:
        sys.exit('retarget.py: the program starts in another way than main+start')
    plain = 'define i32 @main() nounwind {\n  %%r = call i32 %s()\n  ret i32 %%r\n}\n' % start[1]
    return OF_LINUX.sub('', text.replace(found[0], plain))


def with_os(text: str) -> str:
    """Returns the text with the calls of src/os.h instead of Linux's."""
    for old, new in CALLS.items():
        text = re.sub('@%s\\(' % re.escape(old), '@%s(' % new, text)
    return text


def with_heap(text: str) -> str:
    """Returns the text with the functions of the heap in it."""
    pair = re.search(r'(?m)^declare (.*?) @rattle_alloc\(', text)
    if not pair:
        return text
    text = without_declarations(text, 'rattle_(?:alloc|realloc|dealloc)|malloc|realloc|free')
    return text + part('heap.ll').replace('PAIR', pair[1])


def with_swizzle(text: str) -> str:
    """Returns the text with WebAssembly's instruction instead of x86-64's. Ends this program if another one is left."""
    text = without_declarations(text, re.escape(SHUFFLE[1:])).replace(SHUFFLE, '@chosen_bytes')
    left = sorted(set(re.findall(r'@(llvm\.(?:x86|aarch64)\.[\w.]*)', text)))
    if left:
        sys.exit('retarget.py: instructions of one processor alone: ' + ' '.join(left))
    return text + part('chosen_bytes.ll')


def translate(text: str, system: str) -> str:
    """Returns a module's text for another system."""
    target = TARGETS[system]
    layout = KITS_LAYOUTS[target.base]
    if 'target datalayout = "%s"' % layout not in text:
        sys.exit('retarget.py: the module does not have the layout of %s: build it anew' % target.base)
    text = text.replace(layout, target.layout)
    text = re.sub(r'(?m)^target triple = .*', 'target triple = "%s"' % target.triple, text)
    text = OF_A_PROCESSOR.sub('', text)
    text = with_heap(with_os(without_start(text)))
    return with_swizzle(FRAME.sub('', text)) if system.startswith('wasm') else text


def retarget(module: str, system: str, made: str) -> None:
    """Compiles a module for another system into an object file."""
    target = TARGETS[system]
    kept = os.path.splitext(made)[0] + '.ll'
    with open(kept, 'w', encoding='utf-8') as file:
        file.write(translate(text_of(module, target.base), system))
    toolchain.clang('--target=' + target.triple, *target.flags, '-x', 'ir', '-c', kept, '-o', made)


if __name__ == '__main__':
    if len(sys.argv) != 4 or sys.argv[2] not in TARGETS:
        sys.exit((__doc__ or '') + '\nSYSTEM: ' + ' '.join(TARGETS))
    retarget(*sys.argv[1:])
