"""Joins ES modules into one plain script, which a page may load from a disk.

A module becomes a function that returns what the module exports. So a module imports by name, in lines of its own, from
files beside it or in other folders below the same one, and exports functions, classes and constants where they stand, or
in one list at its end. Two modules of one script have different file names.
"""
import os
import re
import sys
from typing import Dict, Tuple

IMPORT = re.compile(r"^import \{ ([^}]*) \} from '(\.[\w./]*)\.js';\n", re.M)
EXPORT = re.compile(r'^export (?=(?:async )?(?:function\*? |class |const )(\w+))', re.M)
LIST = re.compile(r'^export \{ ([^}]*) \};\n', re.M)


def text_of(path: str) -> str:
    """Returns the text of a file."""
    with open(path, encoding='utf-8') as file:
        return file.read()


def add_in_order(folder: str, path: str, texts: Dict[str, str], above: Tuple[str, ...] = ()) -> None:
    """Adds a module, named by its path from a folder, to `texts`, after those that it imports. `above`: the modules that
    import it."""
    if path in above:
        sys.exit('bundle.py: modules import each other: ' + ' '.join(above[above.index(path):] + (path,)))
    if path in texts:
        return
    text = text_of(os.path.join(folder, path + '.js'))
    for _, other in IMPORT.findall(text):
        add_in_order(folder, os.path.normpath(os.path.join(os.path.dirname(path), other)), texts, above + (path,))
    same = [it for it in texts if os.path.basename(it) == os.path.basename(path)]
    if same:
        sys.exit('bundle.py: two modules of one name: %s.js, %s.js' % (same[0], path))
    texts[path] = text


def as_function(path: str, text: str) -> str:
    """Returns a module as a constant `module_NAME` that has what the module exports."""
    exports = EXPORT.findall(text) + [word for found in LIST.findall(text) for word in found.split(', ')]
    text = LIST.sub('', EXPORT.sub('', text))
    text = IMPORT.sub(lambda it: 'const { %s } = module_%s;\n' % (it[1], os.path.basename(it[2])), text)
    left = re.search(r'^(import|export)\b.*', text, re.M)
    if left:
        sys.exit('bundle.py: %s.js: %s' % (path, left.group()))
    return "const module_%s = (() => {\n'use strict';\n%sreturn { %s };\n})();\n" % (
        os.path.basename(path), text, ', '.join(exports))


def script_of(folder: str, first: str) -> str:
    """Returns a module, named by its path from a folder, and all that it imports, as one script."""
    texts: Dict[str, str] = {}
    add_in_order(folder, first, texts)
    return ''.join(as_function(path, text) for path, text in texts.items())
