#!/usr/bin/env python3
"""Links psxgpu_tool.wasm, a command for runtimes of WASI (preview 1): python3 -m systems.wasi

`make wasi` calls it: out/wasi/psxgpu_tool.o is compiled of the kit's module. Three C files of src/ and the heap of the
browser's module (web/memory.c) are added.
"""
import os

from systems import toolchain, wasm


def main() -> None:
    """Makes the command."""
    folder = os.path.dirname(toolchain.out('wasi', 'psxgpu_tool.wasm'))
    sources = [toolchain.source(name) for name in ('os_wasi.c', 'os_words.c', 'os_texts.c')]
    sources.append(os.path.join(toolchain.ROOT, 'web', 'memory.c'))
    parts = [toolchain.out('wasi', 'psxgpu_tool.o'), *(wasm.compiled(source, folder) for source in sources)]
    wasm.link(os.path.join(folder, 'psxgpu_tool'), parts, '--entry=_start')


if __name__ == '__main__':
    main()
