"""Makes the table of the four emulators of docs/EMULATORS.md from stored results.

    python3 -m suite_trials.agreement            the table
    python3 -m suite_trials.agreement --check    is it the document's, and is each test that none passes read by hand?

The results are those of `psxgpu conform PLAYER --json`. A test that no emulator passes has to be in
suite_trials/results/READ_BY_HAND.md by its full name. A test that is not in a stored result was not run on that player.
Status: 0 all is so, 1 it is not.
"""
from __future__ import annotations

import json
import os
import sys
from typing import Dict, Iterator, List

from psxgpu.conformance.chapters import CHAPTERS
from psxgpu.conformance.judging import DIFFERS, FAILED, NOT_TAKEN, PASSED, TROUBLE
from psxgpu.conformance.suite import PSX_SPX, Test

HERE = os.path.dirname(os.path.abspath(__file__))
RESULTS = os.path.join(HERE, 'results')
DOCUMENT = os.path.join(os.path.dirname(HERE), 'docs', 'EMULATORS.md')
PLAYERS = ('beetle', 'mednafen', 'pcsxr', 'mame')
EVERY = [test for chapter in CHAPTERS for test in chapter.tests]
Verdicts = Dict[str, List[str]]         # full name: the verdict and the reason


def stored(player: str) -> Verdicts:
    """Returns the stored results of a player."""
    with open(os.path.join(RESULTS, player + '.json')) as file:
        found: Verdicts = json.load(file)
    return found


def kind(verdicts: Verdicts, test: Test) -> str:
    """Returns the verdict of a test, by who decides it now. One that was not run counts as not taken."""
    found = verdicts.get(test.full_name, [NOT_TAKEN])[0]
    return (FAILED if test.decides == PSX_SPX else DIFFERS) if found in (FAILED, DIFFERS) else found


def score(tests: List[Test], verdicts: Verdicts) -> str:
    """Returns a field of the table: passed of those that were taken, how many failed, how many differ."""
    kinds = [kind(verdicts, test) for test in tests]
    taken = len(kinds) - kinds.count(NOT_TAKEN)
    if not taken:
        return ''
    failed = kinds.count(FAILED) + kinds.count(TROUBLE)
    parts = ['%d of %d' % (kinds.count(PASSED), taken)]
    parts += ['%d failed' % failed] if failed else []
    return ', '.join(parts + (['%d differ' % kinds.count(DIFFERS)] if DIFFERS in kinds else []))


def table(results: Dict[str, Verdicts]) -> Iterator[str]:
    """Yields the lines of the table. A chapter that no player takes has none."""
    yield '| chapter | %s |' % ' | '.join(results)
    yield '|---|%s' % ('---|' * len(results))
    for name, tests in [*((chapter.name, chapter.tests) for chapter in CHAPTERS), ('all', EVERY)]:
        fields = [score(tests, verdicts) for verdicts in results.values()]
        if any(fields):
            yield '| %s | %s |' % (name, ' | '.join(fields))


def passed_by_none(results: Dict[str, Verdicts]) -> List[Test]:
    """Returns the tests that some player takes and none passes."""
    return [test for test in EVERY if {kind(one, test) for one in results.values()} - {NOT_TAKEN}
            and all(kind(one, test) != PASSED for one in results.values())]


def summary(results: Dict[str, Verdicts]) -> str:
    """Returns a sentence: how many tests all players pass, of those that some take."""
    taken = [test for test in EVERY if any(kind(one, test) != NOT_TAKEN for one in results.values())]
    number = sum(all(kind(one, test) == PASSED for one in results.values()) for test in taken)
    return 'All four pass %d of the %d tests.' % (number, len(taken))


def faults(results: Dict[str, Verdicts]) -> Iterator[str]:
    """Yields a line for what the documents lack."""
    with open(DOCUMENT) as file:
        document = file.read()
    for name, text in (('table', '\n'.join(table(results))), ('sentence', summary(results))):
        if text not in document:
            yield 'docs/EMULATORS.md: not the %s of the stored results' % name
    with open(os.path.join(RESULTS, 'READ_BY_HAND.md')) as file:
        read = file.read()
    for test in passed_by_none(results):
        if test.full_name not in read:
            yield '%s: passed by none, and not read by hand' % test.full_name


def main() -> int:
    """Runs the command."""
    results = {player: stored(player) for player in PLAYERS}
    if sys.argv[1:] == ['--check']:
        found = list(faults(results))
        print('\n'.join(found or ['the table of the emulators is that of the stored results']))
        return int(bool(found))
    print('\n'.join([*table(results), '', summary(results), 'None passes these:',
                     *('- ' + test.full_name for test in passed_by_none(results))]))
    return 0


if __name__ == '__main__':
    sys.exit(main())
