#!/usr/bin/env python3
"""Each visit to video memory is counted, by the one counter that `main` made and handed down.

The bounds on the steps say something only where that holds. So the check asks that

- `Blank`, without which no counter is made, and `Steps::new` stand in no code but that of the counter itself, of
  `main`, of the calls for C and of tests. Each call for C begins with a counter of its own; no crate stands on them.
  Code is a test's where `#[cfg(test)]` stands at its module, whatever the name of its file;
- main.rt makes one counter: one `Blank::new`, in `main`, and one `Steps::new`, in the function that `main` hands it to;
- steps.rt has the calls that are named here, and makes no `Blank`;
- in `vram_store`, only the functions that are named here touch the cells, and each of them counts its visits first of
  all, or is named as one that hands out no cell;
- no crate has a macro of its own, which could touch the cells where it is called.

The check first judges planted files and changes of the repository's own files: it has to find each evasion.
"""
import glob
import os
import re
import sys
from typing import Dict, List, Tuple

ROOT = os.path.dirname(os.path.dirname(os.path.dirname(os.path.abspath(__file__))))
import rattle_text
from step_plants import BESIDE, COUNTER, EVASIONS, MAIN, PLANTED

FOR_C = 'psxgpu_c'
MAKERS = (COUNTER, MAIN, FOR_C + '/src/')
MAKES = re.compile(r'\bBlank\b|\bSteps\b[^;(){}]*?::\s*new\b|\bSteps\s+as\b')
# A name for std's module, or all of its names, would hide what is taken from it.
LEDGER = re.compile(r'\bledger\s*(::\s*\*|\s+as\b|::\s*self\b|;)|\bledger\s*::\s*\{[^}]*\b(?:self|as)\b')
# A file that an attribute or a macro names would be read elsewhere than its name says.
ELSEWHERE = re.compile(r'#\s*!?\[[^\]]*\bpath\s*=|\binclude\s*!')
MACRO = re.compile(r'\bmacro_rules\b')
CALLS = ['new', 'tick', 'add']
# What touches the field `cells`, or makes or takes apart a `Vram`, by file: those that count, each with the call that
# counts its visits, and those that read and write no cell for a caller.
ONE, EACH, SIXTEENS = 'steps.tick();', 'steps.add(n);', 'steps.add(copy_steps(n));'
COUNTED = {'vram.rt': {'get': ONE, 'put': ONE, 'load16': ONE, 'store16': ONE},
           'gather.rt': {'gather': EACH, 'gather_in_row': EACH}, 'runs.rt': {'copy_run': SIXTEENS}}
UNCOUNTED = {'vram.rt': ['new', 'set_tall', 'height']}
TOUCHES = re.compile(r'(?<!\.)\.\s*cells\b|(?<!impl )(?<!struct )(?<!-> )\b(?:Vram|Self)\s*\{')
# Another name for the type would hide what takes it apart.
ALIAS = re.compile(r'\bVram\s+as\b|\bVram\s*::\s*<|\btype\s+\w+[^;]*=[^;]*\bVram\b')
# The head of an `impl TRAIT for Vram`. After another `for`, `Vram {` is a pattern, which takes it apart.
TRAIT_OF = re.compile(r'\bimpl\b[^{};]*\bfor Vram(?= \{)')
COUNTS = re.compile(r'\bsteps\s*\.\s*(?:tick|add)\b')
GHOST = re.compile(r'\bghost\b[^;]*;')
CELLS = re.compile(r'#\[derive\(Drop\)\]\s*pub struct Vram \{\s*pub\(crate\) cells: Vec<u16>,\s*\}')
COUNT = re.compile(r'#\[derive\(Drop\)\]\s*pub struct Steps<L: Ledger> \{\s*book: Book<L>,\s*share: Share<L>,\s*\}')


def shown(path: str, code: str, at: int) -> str:
    """Returns the path, number and text of the line with this place."""
    line = code.count('\n', 0, at) + 1
    return 'crates/%s:%d: %s' % (path, line, code.splitlines()[line - 1].strip())


def counters(path: str, code: str) -> List[str]:
    """Returns where a file that may make no counter makes one."""
    found = [*MAKES.finditer(code), *LEDGER.finditer(code)]
    return [shown(path, code, it.start()) for it in sorted(found, key=lambda it: it.start())]


def within(code: str, place: int) -> str:
    """Returns the name of the function whose body has this place, or nothing."""
    names = [it.name for it in rattle_text.functions(code) if 0 <= it.begin <= place < it.begin + len(it.body)]
    return names[-1] if names else ''


def of_main(path: str, code: str) -> List[str]:
    """Returns what main.rt has beyond one counter, made in `main` and opened once."""
    found = [shown(path, code, it.start()) for it in LEDGER.finditer(code)]
    for it in re.finditer(r'\bSteps\s+as\b|\bBlank\s+as\b|\btype\s+\w+[^;]*=[^;]*\b(?:Blank|Steps)\b', code):
        found.append(shown(path, code, it.start()) + ' (another name)')
    blanks = [it.start() for it in re.finditer(r'\bBlank\b[^;(){},]*?::\s*new\b', code)]
    opened = [it.start() for it in re.finditer(r'\bSteps\b[^;(){}]*?::\s*new\b', code)]
    given = [it.start() for it in re.finditer(r'\bBlank\b', code)]
    if [within(code, at) for at in blanks] != ['main'] or not re.search(r'\bBlank::new\(1\)', code):
        found += [shown(path, code, at) + ' (one `Blank::new(1)`, in `main`, is asked)' for at in blanks or [0]]
    if [within(code, at) for at in opened] != ['run_over']:
        found += [shown(path, code, at) + ' (one `Steps::new`, in `run_over`, is asked)' for at in opened or [0]]
    # The import, the one that is made, and the parameter of the function that opens it.
    if len(given) != 3:
        found += [shown(path, code, at) + ' (`Blank` may stand here three times)' for at in given or [0]]
    return found


def of_counter(path: str, code: str) -> List[str]:
    """Returns what steps.rt has beyond a type with private fields and the counter's calls."""
    found = ['crates/%s: fn %s is no call of the counter' % (path, it.name) for it in rattle_text.functions(code)
             if it.name not in CALLS]
    found += [shown(path, code, it.start()) for it in re.finditer(r'\bBlank\b[^;(){},]*?::\s*new\b', code)]
    found += [shown(path, code, it.start()) for it in re.finditer(r'\bimpl\b[^{;]*\sfor\s', code)
              if not it[0].endswith(' Model for ')]
    return found + ([] if COUNT.search(code) else ['crates/%s: the counter is no type of private fields that derives '
                                                   '`Drop` alone' % path])


def of_cells(path: str, code: str) -> List[str]:
    """Returns what in vram_store touches the cells and is not named, or is named and does not count."""
    file = os.path.basename(path)
    counted, uncounted = COUNTED.get(file, {}), UNCOUNTED.get(file, [])
    found = [shown(path, code, it.start()) for it in ALIAS.finditer(code)]
    if file == 'vram.rt' and not CELLS.search(code):
        found.append('crates/%s: the cells are no field of the crate in a type that derives `Drop` alone' % path)
    functions = [it for it in rattle_text.functions(code) if it.begin >= 0]
    named = [*counted, *uncounted]
    if sorted(it.name for it in functions if it.name in named) != sorted(named):
        found.append('crates/%s: once each are asked: %s' % (path, ', '.join(named)))
    rest = code
    for it in functions:
        end = it.begin + len(it.body)
        rest = rest[:it.begin] + rattle_text.blank(it.body) + rest[end:]
        if it.name in counted:
            if len(COUNTS.findall(it.body)) != 1 or not it.body.lstrip().startswith(counted[it.name]):
                found.append('crates/%s: fn %s does not count its visits first of all' % (path, it.name))
        elif it.name not in uncounted:
            found += [shown(path, code, it.begin + at.start()) for at in TOUCHES.finditer(it.body)]
    for kind in (GHOST, TRAIT_OF):
        rest = kind.sub(lambda it: rattle_text.blank(it[0]), rest)
    return found + [shown(path, code, it.start()) for it in TOUCHES.finditer(rest)]


def offences(sources: Dict[str, str], needs: Dict[str, List[str]]) -> List[str]:
    """Returns what is not as it must be. `sources` maps paths below crates/ to texts, `needs` each crate to those that
    it stands on."""
    found: List[str] = []
    for crate in sorted({path.split('/')[0] for path in sources}):
        files = {path: text for path, text in sources.items() if path.startswith(crate + '/')}
        for_tests = rattle_text.test_files(files)
        for path in sorted(set(files) - set(for_tests)):
            code = rattle_text.without_tests(rattle_text.code_of(files[path]))
            for kind in (ELSEWHERE, MACRO):
                found += [shown(path, code, it.start()) for it in kind.finditer(code)]
            if path == MAIN:
                found += of_main(path, code)
            elif not path.startswith(MAKERS):
                found += counters(path, code)
            if crate == 'vram_store':
                found += of_counter(path, code) if path == COUNTER else of_cells(path, code)
    return found + ['crates.txt: %s stands on %s' % (name, FOR_C) for name, below in needs.items() if FOR_C in below]


def of_repository() -> Tuple[Dict[str, str], Dict[str, List[str]]]:
    """Returns the texts of all crates, and what each crate stands on."""
    crates = os.path.join(ROOT, 'crates')
    sources: Dict[str, str] = {}
    needs: Dict[str, List[str]] = {}
    for path in glob.glob(os.path.join(crates, '*', 'src', '**', '*.rt'), recursive=True):
        with open(path, encoding='utf-8') as file:
            sources[os.path.relpath(path, crates)] = file.read()
    with open(os.path.join(ROOT, 'crates.txt'), encoding='utf-8') as file:
        for line in file:
            name, colon, below = line.split('#')[0].partition(':')
            if colon:
                needs[name.split()[0]] = below.split()
    return sources, needs


def tried(sources: Dict[str, str], needs: Dict[str, List[str]]) -> bool:
    """Returns whether planted files and changes are judged as they must be."""
    well = True
    for path, text, wanted in PLANTED:
        found = offences({path: text}, {})
        found = [it for it in found if it.startswith('crates/%s:' % path)]
        if bool(found) != wanted:
            print('planted, and judged wrong: %r: %s' % (text, found or 'nothing found'))
            well = False
    for name, path, old, new in EVASIONS:
        text = sources[path]
        if old and text.count(old) < 1:
            print('%s: the text that is changed is not in %s' % (name, path))
            well = False
            continue
        changed = text.replace(old, new, 1) if old else text + new
        crate = path.split('/')[0] + '/'
        files = {other: own for other, own in {**BESIDE, **sources}.items() if other.startswith(crate)}
        if not offences({**files, path: changed}, {}):
            print('%s: an evasion in %s that was not found' % (name, path))
            well = False
    if not offences({}, {**needs, 'psxgpu_tool': [FOR_C]}):
        print('a program that stands on the calls for C was not found')
        well = False
    return well


def main() -> int:
    """Judges the plants and the repository, and returns the status."""
    sources, needs = of_repository()
    well = tried(sources, needs)
    found = offences(sources, needs)
    for it in found:
        print(it)
    print('%d planted files, %d evasions, %d visits or counters that may not be' % (
        len(PLANTED), len(EVASIONS) + 1, len(found)))
    return 0 if well and not found else 1


if __name__ == '__main__':
    sys.exit(main())
