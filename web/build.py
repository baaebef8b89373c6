#!/usr/bin/env python3
"""Makes the machine as a WebAssembly module, and the page with it.

    python3 -m web.build [module] [page]

`make web` calls it. The kit builds no WebAssembly module that reaches the heap. So this one is made of the LLVM module of
the native library (systems/keep_module.py), compiled for WebAssembly (systems/retarget.py: out/wasi/psxgpu_c.o) and
linked with web/memory.c. Its addresses have 64 bits, as in the native library, and systems/lower64.py makes them 32 bits: then
every engine with SIMD runs it. These files are made in web/out:

    psxgpu.64.wasm  the module before systems/lower64.py, for a check that both do the same
    psxgpu.wasm     the module
    psxgpu.js       web/psxgpu.js, what it imports, and the module: one script that needs no server
    index.html      the page, with the script and two examples in it: one file that needs no server
"""
import base64
import gzip
import json
import os
import sys

WEB = os.path.dirname(os.path.abspath(__file__))
ROOT = os.path.dirname(WEB)
from web import bundle
from systems import toolchain
from systems import wasm

OUT = os.path.join(WEB, 'out')
EXAMPLES = ('flips', 'textured-frame')
NO_MODULE = "const PACKED = '';"


def out(name: str) -> str:
    """Returns the path of a file in web/out."""
    return os.path.join(OUT, name)


def make_module() -> None:
    """Makes psxgpu.wasm of the library's object file."""
    sources = [os.path.join(WEB, 'memory.c'), *toolchain.library_parts()]
    parts = [toolchain.out('wasi', 'psxgpu_c.o'), *(wasm.compiled(source, OUT) for source in sources)]
    exports = ['--export=' + call for call in [*toolchain.exports(), 'malloc', 'free']]
    wasm.link(out('psxgpu'), parts, '--no-entry', *exports)


def base64_of(data: bytes) -> str:
    """Returns bytes in base64."""
    return base64.b64encode(data).decode()


def read(*names: str) -> bytes:
    """Returns the bytes of a file of the checkout."""
    with open(os.path.join(ROOT, *names), 'rb') as file:
        return file.read()


def script() -> str:
    """Returns web/psxgpu.js and what it imports as one script, with the module in it."""
    text = bundle.script_of(WEB, 'psxgpu')
    if text.count(NO_MODULE) != 1:
        sys.exit('web/build.py: web/module.js has no line %s' % NO_MODULE)
    packed = base64_of(gzip.compress(read('web', 'out', 'psxgpu.wasm'), mtime=0))
    text = text.replace(NO_MODULE, "const PACKED = '%s';" % packed)
    return 'globalThis.psxgpu = (() => {\n%sreturn module_psxgpu;\n})();\n' % text


def make_page() -> None:
    """Makes the script with the module in it, and the page with the script and two examples."""
    interface = script()
    examples = {name: base64_of(read('examples', name + '.capture')) for name in EXAMPLES}
    parts = {'<script type="application/json" id="example-files"></script>':
             '<script type="application/json" id="example-files">%s</script>' % json.dumps(examples)}
    for name, text in (('psxgpu.js', interface), ('page.js', bundle.script_of(WEB, 'film_page/page'))):
        parts['<script src="%s"></script>' % name] = '<script>\n%s</script>' % text
    page = read('web', 'film_page', 'index.html').decode()
    for part, whole in parts.items():
        if page.count(part) != 1:
            sys.exit('web/build.py: web/film_page/index.html has no line %s' % part)
        page = page.replace(part, whole)
    for name, text in (('psxgpu.js', interface), ('index.html', page)):
        with open(out(name), 'w', encoding='utf-8') as file:
            file.write(text)


STEPS = {'module': make_module, 'page': make_page}

if __name__ == '__main__':
    if not set(sys.argv[1:]) <= set(STEPS):
        sys.exit(__doc__)
    os.makedirs(OUT, exist_ok=True)
    for step in sys.argv[1:] or STEPS:
        STEPS[step]()
