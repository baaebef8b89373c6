"""Reads one table of one file, for `tables`: of Rattle, C, JavaScript, a document, or of the program itself."""
import glob
import json
import os
import re
import struct
import subprocess
import tempfile
from typing import Any, Callable, Dict, Iterator, List, Tuple

ROOT = os.path.dirname(os.path.dirname(os.path.dirname(os.path.abspath(__file__))))
HERE = os.path.dirname(os.path.abspath(__file__))
Table = Dict[Any, Any]
GP0_WORDS, CLEAR = 12, 0x01000000       # the longest packet; GP1(01h) ends what is unfinished
COUNTS = (0, 1, 2, 3, 6, 7, 262144, 262145, 524288, 524289, 0xFFFFFF)
TAGS = [(version, kind << 24 | count) for version in (1, 2, 3) for kind in range(11) for count in COUNTS]


class Absent(Exception):
    """A program that is needed to read a table is not on this machine."""


def text_of(path: str) -> str:
    """Returns the text of a file of the repository."""
    with open(os.path.join(ROOT, path), encoding='utf-8') as file:
        return file.read()


def output_of(words: List[str], given: bytes = b'') -> bytes:
    """Returns the standard output of a program. Raises Absent if it is not installed."""
    try:
        return subprocess.run(words, input=given, stdout=subprocess.PIPE, cwd=ROOT, check=True).stdout
    except FileNotFoundError:
        raise Absent(words[0]) from None


def upper(name: str) -> str:
    """Returns a name as C spells it: NotCapture is NOT_CAPTURE."""
    return re.sub(r'(?<=[a-z0-9])(?=[A-Z])', '_', name).upper()


# The program.

def program_lengths(player: str) -> Table:
    """Returns the length of the first item of each opcode: the event at which `list` has its first line."""
    data = b'PSXGPUC1'
    for opcode in range(256):
        words = [opcode << 24, *[1] * (GP0_WORDS - 1)]
        data += struct.pack('<%dI' % (GP0_WORDS + 3), 2 << 24 | GP0_WORDS, *words, 3 << 24 | 1, CLEAR)
    lines = output_of([player, 'list'], data + bytes(4)).decode().splitlines()
    found: Table = {}
    for line in lines:
        opcode, word = divmod(int(line.split()[0]) - 1, GP0_WORDS + 1)
        found.setdefault(opcode, word + 1)
    return found


def program_tags(player: str) -> Table:
    """Returns for each of TAGS whether the program takes it."""
    found: Table = {}
    for version, tag in TAGS:
        done = subprocess.run([player, 'report'], input=b'PSXGPUC%d' % version + struct.pack('<I', tag),
                              stdout=subprocess.PIPE, stderr=subprocess.PIPE, check=False)
        found[version, tag] = b'bad-record' not in done.stderr
    return found


# Rattle.

def rattle_kinds() -> Table:
    """Returns the kinds of records by their numbers. End has a line of its own."""
    text = text_of('crates/gpu_capture/specs/Written.antt')
    found = {int(number): name.upper() for name, number in
             re.findall(r'^record_words \(?event\.(\w+)[^=]*= tag_of (\d+)', text, re.M)}
    ends = re.search(r'^spelled_end = word_bytes \(tag_of (\d+) 0\)', text, re.M)
    return {**found, int(ends[1]): 'END'} if ends else found


def rattle_codes() -> Table:
    """Returns the codes of the library's causes by their names."""
    pairs = re.findall(r'^(?:at_stop event|at_fault event|unopened|refused) \(?(\w+\.\w+)[^=]*= '
                       r'(?:numbers|at_place) (\d+)', text_of('crates/psxgpu_c/specs/Codes.antt'), re.M)
    names = {'snap.Bad': 'BAD_SNAPSHOT'}
    return {names.get(name, upper(name.split('.')[1])): int(code) for name, code in pairs}


def rattle_modes() -> Table:
    """Returns the library's modes by their numbers."""
    body = re.search(r'^modes cell =\n((?: .*\n)+)', text_of('crates/psxgpu_c/specs/Whole.antt'), re.M)
    names = re.findall(r'mode\.(\w+)(?:\s+frame_trigger\.(\w+))?', body[1] if body else '')
    return numbered(name.lower() + (' marks' if moment == 'Mark' else '') for name, moment in names)


# C.

def c_constants(path: str, prefix: str) -> Table:
    """Returns the numbers of a header's enumerations whose names begin with a prefix, by the rest of the name."""
    text = re.sub(r'/\*.*?\*/', '', text_of(path), flags=re.S)
    found: Table = {}
    for body in re.findall(r'\benum\s*\{([^}]*)\}', text):
        number = -1
        for item in filter(None, map(str.strip, body.split(','))):
            name, _, value = map(str.strip, item.partition('='))
            number = int(value, 0) if value else number + 1
            if name.startswith(prefix):
                found[name[len(prefix):]] = number
    return found


def c_lengths(path: str, function: str) -> Table:
    """Returns what a function of C gives for the first word of a packet of each opcode."""
    return numbered(map(int, c_lines(path, 256, 'printf("%%u\\n", (unsigned)%s(k << 24));' % function)))


def c_tags(path: str, function: str) -> Table:
    """Returns for each of TAGS whether a function of C takes it: its arguments are version, kind and count."""
    version, tag = ('(const unsigned[]){%s}[k]' % ', '.join(map(str, column)) for column in zip(*TAGS))
    put = 'printf("%%d\\n", %s(%s, %s >> 24, %s & 0xFFFFFF));' % (function, version, tag, tag)
    return dict(zip(TAGS, (line == '1' for line in c_lines(path, len(TAGS), put))))


def c_lines(path: str, count: int, put: str) -> List[str]:
    """Returns the lines that a statement of C puts for each k below a number; `path` is a file that it needs."""
    code = ('#include <stdio.h>\n#include "%s"\nint main(void) {\n    char line[96];\n    (void)line;\n'
            '    for (unsigned k = 0; k < %d; k++) { %s }\n    return 0;\n}\n' % (path, count, put))
    with tempfile.TemporaryDirectory() as folder:
        program = os.path.join(folder, 'lines')
        output_of(['cc', '-I.', '-w', '-x', 'c', '-', '-o', program], code.encode())
        return output_of([program]).decode().splitlines()


# JavaScript.

def js_value(path: str, names: str, expression: str) -> Any:
    """Returns the value of an expression over declarations of a script."""
    return json.loads(output_of(['node', os.path.join(HERE, 'declared.js'), path, names, expression]))


def scripts(text: str = '') -> List[str]:
    """Returns the paths of the scripts in web/ that have a text."""
    found = (os.path.relpath(it, ROOT) for it in sorted(glob.glob(ROOT + '/web/**/*.js', recursive=True)))
    return [path for path in found if not path.startswith('web/out/') and text in text_of(path)]


def js_constants(path: str) -> Iterator[Tuple[str, int]]:
    """Yields each constant of a script that is a number."""
    text = text_of(path)
    for names, values in re.findall(r'\bconst \[([^\]=]*)\] = \[([\d, ]*)\]', text):
        yield from zip(map(str.strip, names.split(',')), map(int, values.split(',')))
    for name, value in re.findall(r'\bconst (\w+) = (\d+);', text):
        yield name, int(value)


# Rust.

def rust_constants(path: str) -> Table:
    """Returns the numbers of a module's constants of 32 bits by their names."""
    return {name: int(number) for name, number in re.findall(r'\bconst (\w+): u32 = (\d+);', text_of(path))}


def rust_modes(path: str) -> Table:
    """Returns the modes of a `match` by their numbers."""
    found = re.findall(r'\bMode::(\w+)(?:\(.*?\))? => \((\d+),', text_of(path))
    return {int(number): upper(name).lower().replace('_', ' ') for name, number in found}


# Documents.

def document_kinds() -> Table:
    """Returns the kinds of records of CAPTURE.md by their numbers."""
    return {int(number): name.upper() for number, name in
            re.findall(r'^\| (\d+) \| (\w+) \| ', text_of('docs/CAPTURE.md').split('\n## ')[1], re.M)}


def numbered(names: Any) -> Table:
    """Returns a list as a table by number."""
    return dict(enumerate(names))


Reader = Callable[[], Table]
