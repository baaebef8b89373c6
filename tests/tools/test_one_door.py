"""No module of the package writes a file by itself: what writes is psxgpu/output. Found by the syntax tree."""
import ast
import os
import unittest

from tests import support

PACKAGE = os.path.join(support.TOP, 'psxgpu')
DOOR = os.path.join(PACKAGE, 'output')
# What reads, or has to do with names, processes and environment. Everything else of these modules is refused.
ALLOWED = {
    'os': {'R_OK', 'SEEK_CUR', 'SEEK_END', 'X_OK', 'PathLike', 'access', 'cpu_count', 'devnull', 'environ', 'fsdecode',
           'fsencode', 'fspath', 'fstat', 'killpg', 'listdir', 'lseek', 'path', 'pathsep', 'read', 'sched_getaffinity',
           'sep', 'stat', 'times', 'walk'},
    'shutil': {'which'},
    'io': {'BytesIO', 'RawIOBase', 'StringIO', 'TextIOWrapper'},
    'gzip': {'BadGzipFile', 'GzipFile'},
    'lzma': {'FORMAT_XZ', 'LZMADecompressor', 'LZMAError', 'LZMAFile'},
    # Files of the tool itself, with names that nobody else has.
    'tempfile': {'NamedTemporaryFile', 'SpooledTemporaryFile', 'TemporaryDirectory', 'TemporaryFile', 'gettempdir',
                 '_TemporaryFileWrapper'},
}
WRITERS = {'pathlib', 'zipfile', 'tarfile', 'bz2', 'fileinput', 'mmap', 'posix', 'nt', 'sqlite3', 'dbm', 'shelve', '_io',
           'logging'}


class Finder(ast.NodeVisitor):
    """The lines of a module that may write a file."""

    def __init__(self):
        self.found = []
        self.modules = {}           # the local name of each module that is limited

    def note(self, node, text):
        self.found.append('%d: %s' % (node.lineno, text))

    def visit_Import(self, node):
        for name in node.names:
            top = name.name.split('.')[0]
            if top in WRITERS:
                self.note(node, name.name)
            if top in ALLOWED and not (name.name == 'os.path' and name.asname):
                self.modules[name.asname or top] = top

    def visit_ImportFrom(self, node):
        top = (node.module or '').split('.')[0]
        if top in WRITERS:
            self.note(node, top)
        for name in node.names if top in ALLOWED and node.module != 'os.path' else ():
            if name.name not in ALLOWED[top]:
                self.note(node, '%s.%s' % (top, name.name))

    def visit_Attribute(self, node):
        if isinstance(node.value, ast.Name) and node.value.id in self.modules:
            module = self.modules[node.value.id]
            if node.attr not in ALLOWED[module]:
                self.note(node, '%s.%s' % (module, node.attr))
        self.generic_visit(node)

    def visit_Name(self, node):
        """`open` under another name, and a module that is passed on."""
        if node.id == 'open' and not getattr(node, 'is_called', False):
            self.note(node, 'open')
        if node.id in self.modules and not getattr(node, 'is_used', False):
            self.note(node, node.id)

    def visit_Call(self, node):
        if isinstance(node.func, ast.Name) and node.func.id in ('open', '__import__', 'eval', 'exec'):
            self.check_call(node, node.func.id)
            node.func.is_called = True
        self.generic_visit(node)

    def check_call(self, node, name):
        if name == '__import__' or name == 'exec':
            self.note(node, name)
        if name != 'open':
            return
        mode = node.args[1] if len(node.args) > 1 else next((it.value for it in node.keywords if it.arg == 'mode'), None)
        if mode is not None and not (isinstance(mode, ast.Constant) and set(mode.value) <= set('rbt')):
            self.note(node, 'open')
        if any(isinstance(it, ast.Starred) for it in node.args) or any(it.arg is None for it in node.keywords):
            self.note(node, 'open')


def writes(text):
    """Returns the lines of a module that may write a file."""
    tree = ast.parse(text)
    for node in ast.walk(tree):
        if isinstance(node, ast.Attribute) and isinstance(node.value, ast.Name):
            node.value.is_used = True
    finder = Finder()
    finder.visit(tree)
    return finder.found


class OneDoor(unittest.TestCase):
    def test_no_other_module_writes(self):
        count = 0
        for folder, _, names in os.walk(PACKAGE):
            for name in names if folder != DOOR else ():
                if name.endswith('.py'):
                    path = os.path.join(folder, name)
                    with self.subTest(os.path.relpath(path, support.TOP)), open(path, encoding='utf-8') as file:
                        self.assertEqual(writes(file.read()), [])
                        count += 1
        self.assertGreater(count, 100)

    def test_what_writes_is_found(self):
        for text in ('open(p, "w")', 'open(p, "rb+")', 'open(p, mode)', 'open(p, mode="a")', 'open(*them)', 'f = open',
                     'import os\nos.open(p, 1)', 'import os\nos.replace(a, b)', 'import os as o\no.makedirs(p)',
                     'from os import remove', 'import os\nx = os', 'import shutil\nshutil.copy(a, b)',
                     'import io\nio.open(p)', 'import io\nio.FileIO(p, "w")', 'import pathlib', 'import zipfile',
                     'from pathlib import Path', 'import gzip\ngzip.open(p, "w")', 'import lzma\nlzma.open(p)',
                     'import tempfile\ntempfile.mkstemp()', 'exec(t)', '__import__("os")',
                     'import os.path\nos.rename(a, b)'):
            with self.subTest(text):
                self.assertNotEqual(writes(text), [])
        for text in ('open(p)', 'open(p, "rb")', 'import os\nos.path.join(a, b)', 'import shutil\nshutil.which(n)',
                     'import tempfile\ntempfile.TemporaryFile()', 'text.replace(a, b)'):
            with self.subTest(text):
                self.assertEqual(writes(text), [])
