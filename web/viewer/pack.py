#!/usr/bin/env python3
"""Writes web/viewer.html, one file that needs nothing beside it: the page of web/viewer with its style, its modules,
the machine (web/out/psxgpu.js, which `make web` makes) and the examples.

    python3 -m web.viewer.pack [OUT]

web/bundle.py joins the modules, and has what they may not do.
"""
import base64
import hashlib
import json
import os
import sys

from web import bundle

HERE = os.path.dirname(os.path.abspath(__file__))
WEB = os.path.dirname(HERE)
EXAMPLES = os.path.join(os.path.dirname(WEB), 'examples')
MACHINE = os.path.join(WEB, 'out', 'psxgpu.js')
FIRST = 'main'
INSIDE = '<script type="application/json" id="inside"></script>'      # psxgpu.viewing.page fills it


def text_of(path: str) -> str:
    """Returns the text of a file."""
    with open(path, encoding='utf-8') as file:
        return file.read()


def example_files() -> str:
    """Returns the examples as JSON: the bytes of each in base64, by its name."""
    out = {}
    for name in sorted(os.listdir(EXAMPLES)):
        if name.endswith('.capture'):
            with open(os.path.join(EXAMPLES, name), 'rb') as file:
                out[name[:-len('.capture')]] = base64.b64encode(file.read()).decode()
    return json.dumps(out)


def hash_of(script: str) -> str:
    """Returns a script as a content policy names it: the page runs no other."""
    return "'sha256-%s'" % base64.b64encode(hashlib.sha256(script.encode()).digest()).decode()


def page() -> str:
    """Returns the page."""
    scripts = ['\n' + text_of(MACHINE), '\n' + bundle.script_of(HERE, FIRST)]
    parts = ['<script type="application/json" id="example-files">%s</script>' % example_files(), INSIDE,
             *('<script>%s</script>' % script for script in scripts)]
    text = text_of(os.path.join(HERE, 'index.html'))
    return (text.replace('/* STYLE */', '\n' + text_of(os.path.join(HERE, 'style.css')))
            .replace('SCRIPT_HASHES', ' '.join(map(hash_of, scripts)))
            .replace('<!-- SCRIPTS -->', '\n'.join(parts)))


def main() -> None:
    """Writes the page."""
    out = sys.argv[1] if len(sys.argv) > 1 else os.path.join(WEB, 'viewer.html')
    if not os.path.exists(MACHINE):
        sys.exit('pack.py: there is no web/out/psxgpu.js: make web makes it')
    with open(out, 'w', encoding='utf-8') as file:
        file.write(page())
    print('%s: %d bytes' % (os.path.relpath(out), os.path.getsize(out)))


if __name__ == '__main__':
    main()
