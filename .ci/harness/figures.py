#!/usr/bin/env python3
"""Refuses what makes the code's heads grow: functions with many parameters, contracts of many clauses, functions that
promise nothing, long bodies and files.

.ci/figures.txt has a limit for each figure. Where a figure is above its limit, lines say so, with the places that count
most, and the status is 1. `.ci/checks/figures --keep` lowers the limits to what is reached now; it raises none. The
check first counts planted texts, and its status is 1 where it counts one of them wrong.
"""
import collections
import os
import re
import subprocess
import sys
from typing import Dict, Iterable, Iterator, List, Tuple

ROOT = os.path.dirname(os.path.dirname(os.path.dirname(os.path.abspath(__file__))))
import rattle_text

KEPT = os.path.join(ROOT, '.ci', 'figures.txt')
DEFINITION = re.compile(
    r'^(?:abbrev |unfoldable )?pub (?!record |data |mod |use )([^\s:]+) :([^=]*?)\n(?=\S)', re.M)
RECORD = re.compile(r'^pub record (\S+)((?:\s+[({][^(){}]*(?:\([^()]*\)[^(){}]*)*[)}])*)\s*:', re.M)
NAMED = re.compile(r'\(([\s\w«»-]+?) : ')
IN_BRACKETS = re.compile(r'\([^()]*(?:\([^()]*\)[^()]*)*\)')
SHOWN = 3
# By the name of a figure what counts for it, the worst first: how much, and where.
Figures = Dict[str, List[Tuple[int, str]]]


def parts(text: str) -> int:
    """Returns how many parts the text has between commas that stand in no brackets."""
    depth, count, some = 0, 0, False
    for c in text:
        depth += (c in '(<[{') - (c in ')>]}')
        some = some or not c.isspace()
        if c == ',' and depth == 0:
            count, some = count + 1, False
    return count + some


def functions(text: str) -> Iterator[Tuple[str, int, int, int, bool]]:
    """Yields each function of a file that is no test's: its name, parameters, clauses, lines of the body, and whether
    it promises nothing. A function that a trait asks for has the trait's promises."""
    for it in rattle_text.functions(rattle_text.without_tests(rattle_text.code_of(text))):
        promises_nothing = not it.of_trait and 'ensures' not in it.clauses
        yield it.name, parts(it.parameters), len(it.clauses), it.lines, promises_nothing


def arguments(text: str) -> Iterator[Tuple[str, int]]:
    """Yields the name and the positional arguments of each definition and record of a specification."""
    for found in DEFINITION.finditer(text):
        plain = [it for it in IN_BRACKETS.sub('X', found[2]).split('→') if it.strip() != 'X']
        yield found[1], named(found[2]) + max(len(plain) - 1, 0)
    for found in RECORD.finditer(text):
        yield found[1], named(found[2])


def named(text: str) -> int:
    """Returns how many arguments with names the text has."""
    return sum(len(it[1].split()) for it in NAMED.finditer(text))


def figures(files: Iterable[Tuple[str, str]]) -> Figures:
    """Returns the figures of files, each given as its path and its text."""
    out: Figures = {name: [] for name in (
        'functions of more than five parameters', 'contracts of more than eight clauses', 'bodies of more than 40 lines',
        'files of more than 500 lines', 'folders of more than twenty files', 'lines of more than 120 columns',
        'definitions of more than five arguments', 'functions without an ensures clause')}
    wide, many, long, files_long, crowded, columns, spread, silent = out.values()
    in_folder: Dict[str, int] = collections.Counter()
    for path, text in files:
        lines = text.splitlines()
        in_folder[os.path.dirname(path)] += 1
        files_long += [(len(lines), path)] if len(lines) > 500 else []
        columns += [(len(line), '%s:%d' % (path, k + 1)) for k, line in enumerate(lines) if len(line) > 120]
        if path.endswith('.rt') and not re.search(r'/tests(\.rt|/)', path):
            for name, given, clauses, size, promises_nothing in functions(text):
                place = '%s %s' % (path, name)
                wide += [(given, place)] if given > 5 else []
                many += [(clauses, place)] if clauses > 8 else []
                long += [(size, place)] if size > 40 else []
                silent += [(1, place)] if promises_nothing else []
        elif '/specs/' in path:
            spread += [(given, '%s %s' % (path, name)) for name, given in arguments(text) if given > 5]
    crowded += [(count, folder) for folder, count in in_folder.items() if count > 20]
    return {name: sorted(rows, reverse=True) for name, rows in out.items()}


def of_repository() -> Iterator[Tuple[str, str]]:
    """Yields the path and the text of each file of the crates that git knows."""
    names = subprocess.run(['git', 'ls-files', 'crates'], cwd=ROOT, capture_output=True, text=True, check=True).stdout
    for name in names.split():
        path = os.path.join(ROOT, name)
        if name.endswith(('.rt', '.antt')) and os.path.exists(path):
            with open(path) as file:
                yield name, file.read()


PLANTED = [
    ('a/src/long.rt', '// a\n' * 501, 'files of more than 500 lines', 1),
    ('a/proofs/Long.antt', '-- a\n' * 500, 'files of more than 500 lines', 0),
    ('a/src/wide.rt', 'fn f(a: u8, b: (u8, u8), c: &[u8], d: u8, e: u8, f: u8)\n{\n}\n',
     'functions of more than five parameters', 1),
    ('a/src/wide.rt', 'fn f(a: u8, b: (u8, u8), c: Map<u8, u8>, d: u8, e: u8,)\n{\n}\n',
     'functions of more than five parameters', 0),
    ('a/src/many.rt', 'fn f()\n' + '    ensures { a }\n' * 9 + '{\n}\n', 'contracts of more than eight clauses', 1),
    ('a/src/many.rt', 'fn f()\n' + '    ensures { a }\n' * 8 + '{\n}\n', 'contracts of more than eight clauses', 0),
    ('a/src/long.rt', 'fn f()\n{\n' + '    a();\n' * 41 + '}\n', 'bodies of more than 40 lines', 1),
    ('a/src/long.rt', 'fn f()\n{\n' + '    a();\n' * 39 + '}\n', 'bodies of more than 40 lines', 0),
    ('a/src/long.rt', 'fn f(a: u8) -> u8 {\n' + '    a();\n' * 60 + '}\n', 'bodies of more than 40 lines', 1),
    ('a/src/long.rt', 'impl A {\n    fn f(&self) -> [u8; 4] {\n' + '    a();\n' * 60 + '    }\n}\n',
     'bodies of more than 40 lines', 1),
    ('a/src/long.rt', 'fn f<T: Fn(u8) -> u8>(a: T)\nwhere\n    T: B,\n{\n' + '    a();\n' * 60 + '}\n',
     'bodies of more than 40 lines', 1),
    ('a/src/long.rt', 'fn f()\n    ensures { a\n' + '        b\n' * 60 + '    }\n{\n}\n',
     'bodies of more than 40 lines', 0),
    ('a/src/long.rt', '// fn g() {\nfn f() { "{" }\n' + '// a\n' * 60 + 'fn h() {}\n',
     'bodies of more than 40 lines', 0),
    ('a/src/long.rt', '#[cfg(test)]\nmod tests {\n    fn f() {\n' + '        a();\n' * 60 + '    }\n}\n',
     'bodies of more than 40 lines', 0),
    ('a/src/silent.rt', 'fn f() {\n}\n', 'functions without an ensures clause', 1),
    ('a/src/silent.rt', 'fn f()\n    requires { a }\n{\n    let ensures = 1;\n}\n',
     'functions without an ensures clause', 1),
    ('a/src/silent.rt', 'fn f()\n    requires { a }\n    ensures same { a }\n{\n}\n',
     'functions without an ensures clause', 0),
    ('a/src/silent.rt', 'impl T for A<u8> {\n    fn f() {\n    }\n}\nimpl A {\n    fn g() {\n    }\n}\n',
     'functions without an ensures clause', 1),
    ('a/src/asked.rt', 'trait T {\n    fn f();\n    fn g()\n' + '        ensures { a }\n' * 8 + '    {\n    }\n}\n',
     'contracts of more than eight clauses', 0),
    ('a/specs/S.antt', 'abbrev pub f : (a b : ℕ) → List ℕ → (c d e : ℕ) → Type 0\nf a = b\n',
     'definitions of more than five arguments', 1),
    ('a/specs/S.antt', 'abbrev pub f : (a b : ℕ) → List ℕ → (c d : ℕ) → Type 0\nf a = b\n',
     'definitions of more than five arguments', 0),
    ('a/specs/S.antt', 'pub record R {V : Type 0} (a b : ℕ)\n    (f : ℕ → ℕ) (c d e : List ℕ) : Type 0 where\n',
     'definitions of more than five arguments', 1),
    ('a/specs/S.antt',
     'pub record R (a : ℕ) : Type 0 where\n  pub f : (b c d e f g : ℕ) → a ≡ b\nabbrev pub h : ℕ\nh = 0\n',
     'definitions of more than five arguments', 0),
    ('a/proofs/P.antt', 'x' * 121 + '\n', 'lines of more than 120 columns', 1),
]


def tried() -> bool:
    """Returns whether planted texts are counted as they must be."""
    well = True
    for path, text, name, wanted in PLANTED:
        found = figures([(path, text)])[name]
        if len(found) != wanted:
            print('planted, and counted wrong: %r: %s: %s' % (text[:60], name, found))
            well = False
    for count in (20, 21):
        found = figures(('a/src/%d.rt' % k, '') for k in range(count))['folders of more than twenty files']
        well = well and len(found) == (count > 20)
    return well


def kept() -> Dict[str, int]:
    """Returns the limit of each figure."""
    with open(KEPT) as file:
        return {name: int(number) for number, name in (line.rstrip('\n').split(' ', 1) for line in file)}


def keep(now: Figures, before: Dict[str, int]) -> None:
    """Writes the limits: each figure as it is now, but none above the limit that it has."""
    with open(KEPT, 'w') as file:
        file.writelines('%d %s\n' % (min(len(rows), before.get(name, len(rows))), name) for name, rows in now.items())


def by_crate(rows: List[Tuple[int, str]]) -> str:
    """Returns how many of these places each crate has."""
    counts = collections.Counter(place.split('/')[1] for _, place in rows)
    return ', '.join('%s %d' % it for it in counts.most_common())


def main() -> int:
    """Compares the figures with their limits, and returns the status."""
    if not tried():
        return 1
    now, before, higher = figures(of_repository()), kept(), 0
    if sys.argv[1:] == ['--keep']:
        keep(now, before)
        return 0
    for name, rows in now.items():
        limit = before.get(name, 0)
        if len(rows) > limit:
            higher += 1
            print('%s: %d, and the limit is %d' % (name, len(rows), limit))
            for number, place in rows[:SHOWN]:
                print('    %d %s' % (number, place))
        elif len(rows) < limit:
            print('%s: %d, and the limit is still %d: .ci/checks/figures --keep lowers it' % (name, len(rows), limit))
    print('%d planted texts, %s' % (len(PLANTED), ', '.join('%d %s' % (len(rows), name) for name, rows in now.items())))
    print('without an ensures clause: %s' % by_crate(now['functions without an ensures clause']))
    return 1 if higher else 0


if __name__ == '__main__':
    sys.exit(main())
