"""Source text in Rattle as the checks read it: without comments and literals, by its modules and its functions."""
import os
import re
from typing import Dict, Iterator, List, NamedTuple, Tuple

SKIPPED = re.compile(r'''
    //[^\n]*
  | /\*
  | \b(?:b|c)?r(?P<marks>\#*)".*?"(?P=marks)
  | (?:\b[bc])?"(?:[^"\\]|\\.)*"
  | (?:\bb)?'(?:[^'\\\n]|\\(?:x[0-9a-fA-F]{2}|u\{[^}]*\}|.))'
''', re.S | re.X)
BLOCK_END = re.compile(r'/\*|\*/')
MODULE = re.compile(r'((?:#\[[^\]]*\]\s*)*)(?:pub(?:\([a-z :]+\))?\s+)?mod\s+(\w+)\s*([;{])')
TEST_ALONE = re.compile(r'#\[\s*cfg\(\s*test\s*\)\s*\]')
FUNCTION = re.compile(r'\bfn\s+(\w+)\s*([<(])')
CLAUSE = re.compile(r'\b(requires|ensures)\s*(?:\w+\s*)?$')
TRAIT_BLOCK = re.compile(r'^[ \t]*(?:unsafe\s+)?impl\b[^{;]*?\sfor\s[^{;]*\{', re.M)
BRACKETS = {'(': ')', '[': ']', '{': '}'}


class Function(NamedTuple):
    """A function of a text.

    `clauses` are the words `requires` and `ensures` of its contract, in their order. `at` is the place of `fn`, and
    `begin` that of the body, or -1 where a trait asks for the function. `of_trait` says that it stands in an
    `impl TRAIT for TYPE`.
    """

    name: str
    parameters: str
    clauses: List[str]
    lines: int
    body: str
    at: int
    begin: int
    of_trait: bool


def blank(text: str) -> str:
    """Returns spaces in place of a text, with its ends of lines."""
    return re.sub(r'[^\n]', ' ', text)


def code_of(text: str) -> str:
    """Returns a text with spaces in place of comments and literals, so that each place and line stays."""
    parts: List[str] = []
    at = 0
    while True:
        found = SKIPPED.search(text, at)
        if not found:
            return ''.join(parts) + text[at:]
        end = found.end()
        if found[0] == '/*':
            depth = 1
            while depth:
                mark = BLOCK_END.search(text, end)
                if not mark:
                    end = len(text)
                    break
                end, depth = mark.end(), depth + (1 if mark[0] == '/*' else -1)
        parts += [text[at:found.start()], blank(text[found.start():end])]
        at = end


def closing(text: str, at: int) -> int:
    """Returns the place of the bracket that closes the one at this place, or the end of the text."""
    opening, depth = text[at], 0
    for i in range(at, len(text)):
        depth += (text[i] == opening) - (text[i] == BRACKETS[opening])
        if depth == 0:
            return i
    return len(text)


def after_generics(text: str, at: int) -> int:
    """Returns the place after the type parameters that begin at this place with `<`."""
    depth = 0
    for i in range(at, len(text)):
        depth += (text[i] == '<') - (text[i] == '>' and text[i - 1] not in '-=')
        if depth == 0:
            return i + 1
    return len(text)


def without_tests(code: str) -> str:
    """Returns the code with spaces in place of each module that stands in it under `#[cfg(test)]`."""
    parts: List[str] = []
    at = 0
    for found in MODULE.finditer(code):
        if found.start() >= at and found[3] == '{' and TEST_ALONE.search(found[1]):
            end = closing(code, found.end() - 1) + 1
            parts += [code[at:found.start()], blank(code[found.start():end])]
            at = end
    return ''.join(parts) + code[at:]


def test_files(sources: Dict[str, str]) -> List[str]:
    """Returns the files that only tests read: those of a `#[cfg(test)] mod NAME;`, and of the modules in them.

    `sources` maps the path of each file of a crate's src/ to its text. A file that the program reads too is none.
    """
    tests: Dict[str, bool] = {}
    todo = [(path, False) for path in sources if os.path.basename(path) in ('lib.rt', 'main.rt')]
    while todo:
        path, for_tests = todo.pop()
        if tests.get(path, True) and tests.get(path) is not for_tests:
            tests[path] = for_tests
            todo += [(name, for_tests or alone) for name, alone in modules(path, code_of(sources[path]))
                     if name in sources]
    return [path for path, for_tests in tests.items() if for_tests]


def modules(path: str, code: str) -> Iterator[Tuple[str, bool]]:
    """Yields the files of the modules that a file names, and whether `#[cfg(test)]` stands at each."""
    folder, name = os.path.split(path)
    if name not in ('lib.rt', 'main.rt', 'mod.rt'):
        folder = path[:-len('.rt')]
    hidden = without_tests(code)
    for found in MODULE.finditer(code):
        if found[3] == ';':
            alone = bool(TEST_ALONE.search(found[1])) or not hidden[found.start():found.end()].strip()
            yield os.path.join(folder, found[2] + '.rt'), alone
            yield os.path.join(folder, found[2], 'mod.rt'), alone


def functions(code: str) -> Iterator[Function]:
    """Yields each function of a code without comments, and each that a trait asks for."""
    blocks = [(found.start(), closing(code, found.end() - 1)) for found in TRAIT_BLOCK.finditer(code)]
    for found in FUNCTION.finditer(code):
        begin = found.end() - 1
        if found[2] == '<':
            begin = after_generics(code, begin)
        if code[begin:begin + 1] != '(':
            continue
        end = closing(code, begin)
        clauses, opened = head(code, end + 1)
        last = closing(code, opened) if opened >= 0 else opened
        body = code[opened + 1:last] if opened >= 0 else ''
        of_trait = any(first < found.start() < until for first, until in blocks)
        yield Function(found[1], code[begin + 1:end], clauses, max(body.count('\n') - 1, 0), body, found.start(),
                       opened + 1 if opened >= 0 else -1, of_trait)


def head(code: str, at: int) -> Tuple[List[str], int]:
    """Returns the words of the clauses that begin at this place, and the place of the body's `{`, or -1 for none."""
    clauses: List[str] = []
    start = at
    while at < len(code):
        if code[at] in '([':
            at = closing(code, at)
        elif code[at] == ';':
            return clauses, -1
        elif code[at] == '{':
            clause = CLAUSE.search(code, start, at)
            if not clause:
                return clauses, at
            clauses.append(clause[1])
            at = closing(code, at)
            start = at
        at += 1
    return clauses, -1
