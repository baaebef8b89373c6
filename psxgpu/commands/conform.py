"""Runs the conformance suite on a player: one test for each rule of the GPU.

    psxgpu conform 'my_emulator --headless vram'        the rule, the packets and both values of each test that did
                                                        not pass, and a table by chapter
    psxgpu conform psxgpu_tool --page page.html --junit results.xml
    psxgpu conform psxgpu_tool --only fills --only copies/overlap-right
    psxgpu conform my_emulator --keep-expected known.json       the tests that it does not pass today
    psxgpu conform my_emulator --expect known.json              status 0 if no other test fails
    psxgpu conform --list
    psxgpu conform --write FOLDER                       the tests as files: captures, dumps, programs for the console

PLAYER is a shell command that reads a capture on standard input. The mode replaces the word `vram` in it, or is added
at the end. `vram` writes a dump of video memory, `play` prints each word that is read and each status, and `shot`
writes the displayed picture (docs/PLAYER.md). The suite first finds what the player does not support (`play`, `shot`,
DMA, turns, the tall profile). Tests that need it are not taken; a line has the reason. docs/CONFORMANCE.md has the
details.

Status: 0 no test failed, 1 some did (with --strict also if a rule of this project decides), 2 an error. With --expect,
tests that end as FILE has it do not count. A test that was taken and is not taken now counts as failed.
"""
from __future__ import annotations

import argparse
import os
import sys
import time
from concurrent.futures import ThreadPoolExecutor
from typing import List

from psxgpu import progress
from psxgpu.command import DIFFERENT, SAME, TROUBLE, ToolError, decimal
from psxgpu.conformance import expected, folder, judging, reducing, report
from psxgpu.conformance.chapters import CHAPTERS
from psxgpu.conformance.judging import Judge, Verdict
from psxgpu.conformance.page import MAKER, page, viewer_page
from psxgpu.conformance.released import SUITE, WITHDRAWN
from psxgpu.conformance.suite import Test
from psxgpu.output import Command, Content, Source, Target, Text, stem, stream_of, tree, write_several
from psxgpu.players import player
from psxgpu.players.named import Player, player_of
from psxgpu.players.trial_run import try_player
from psxgpu.viewing.template import found

ENDING = '-viewer.html'


def arguments(parser: argparse.ArgumentParser) -> None:
    """Adds the arguments."""
    parser.add_argument('tested', nargs='?', type=Command, metavar='PLAYER',
                        help='a shell command: capture in, dump out')
    parser.add_argument('--only', action='append', type=Text, default=[], metavar='NAME',
                        help='a chapter, or CHAPTER/TEST')
    parser.add_argument('--page', type=Target, metavar='FILE',
                        help='write a page with pictures: theirs, ours, the difference; if the viewer is built, also '
                             'one that shows each failure step by step (page-viewer.html for page.html)')
    parser.add_argument('--junit', type=Target, metavar='FILE', help='write JUnit XML')
    parser.add_argument('--json', type=Target, metavar='FILE', help='write the verdicts')
    parser.add_argument('--expect', type=Source, metavar='FILE', help='known failures: only another one fails the run')
    parser.add_argument('--keep-expected', type=Target, metavar='FILE',
                        help='write the tests that do not pass now, for --expect')
    parser.add_argument('--reduce', type=tree('psxgpu conform --reduce'), metavar='FOLDER',
                        help='write the smallest capture that still shows each failure')
    parser.add_argument('--write', '-o', type=tree(folder.MAKER), metavar='FOLDER',
                        help='write the tests as files, and what they expect')
    parser.add_argument('--exe', action='store_true', help='with --write: also programs for the console')
    parser.add_argument('--jobs', type=decimal(1, 1024), default=1, metavar='N',
                        help='runs of the player at a time (default: %(default)s)')
    parser.add_argument('--seconds', type=decimal(1, 3600), default=20, metavar='N',
                        help='for one run of the player (default: %(default)s)')
    parser.add_argument('--list', action='store_true', help='list the tests: name, who decides, the rule')
    parser.add_argument('--quiet', action='store_true', help='print the table alone')
    parser.add_argument('--strict', action='store_true', help='status 1 also if a rule of this project decides')
    parser.add_argument('--version', action='store_true', help='print the version of the suite')
    player.argument(parser)


def complete(words: argparse.Namespace) -> None:
    """Names the page of the viewer that --page links: it is beside that page."""
    words.beside = None
    if words.page and stream_of(words.page) is None and found():
        words.beside = stem((ENDING,), (ENDING, '<!doctype html><!-- %s -->' % MAKER))(os.path.splitext(words.page)[0])


def every_test() -> List[Test]:
    """Returns the tests of all chapters."""
    return [test for chapter in CHAPTERS for test in chapter.tests]


def names_of_tests() -> List[str]:
    """Returns what --only takes: the chapters and the tests."""
    return [chapter.name for chapter in CHAPTERS] + [test.full_name for test in every_test()]


VALUES = {'--only': names_of_tests}


def chosen(names: List[str]) -> List[Test]:
    """Returns the tests of these chapters and of these full names; all without names."""
    tests = every_test()
    for name in names:
        if name in WITHDRAWN:
            raise ToolError('%s is withdrawn: %s' % (name, WITHDRAWN[name]))
        if not any(name in (test.chapter, test.full_name) for test in tests):
            raise ToolError('%s: no chapter or test has this name: --list has them' % name)
    return [test for test in tests if not names or test.chapter in names or test.full_name in names]


def version() -> str:
    """Returns the version of the suite."""
    return 'suite %d: %d tests, %d withdrawn' % (SUITE, len(every_test()), len(WITHDRAWN))


def run_tests(tests: List[Test], tested: Player, jobs: int, seconds: int) -> List[Verdict]:
    """Returns the verdicts."""
    try_player(tested, seconds=seconds)
    judge = Judge(tested, seconds)
    with progress.shown(tested.text, is_quiet=True) as line, ThreadPoolExecutor(jobs) as pool:
        verdicts = []
        for verdict in pool.map(judge.judge, tests):
            verdicts.append(verdict)
            line.part = len(verdicts) / len(tests)
    return verdicts


def status_of(verdicts: List[Verdict], news: List[Verdict], words: argparse.Namespace) -> int:
    """Returns the status of the command. `news`: the verdicts that count: all that did not pass, or those not known."""
    kinds = {verdict.kind for verdict in news}
    if judging.TROUBLE in kinds:
        return TROUBLE
    if words.expect and judging.NOT_TAKEN in kinds or all(verdict.kind != judging.PASSED for verdict in verdicts):
        return DIFFERENT
    return DIFFERENT if judging.FAILED in kinds or words.strict and judging.DIFFERS in kinds else SAME


def show(verdicts: List[Verdict], words: argparse.Namespace, known: expected.Known) -> int:
    """Prints what is found, the table last. Returns the status."""
    comparison = expected.Comparison(verdicts, known)
    if not words.quiet:
        lines = report.lines(comparison.news) + report.not_taken(comparison.news)
        print(''.join(line + '\n' for line in lines + (comparison.lines() if words.expect else [])), end='')
    print(report.table(verdicts))
    return status_of(verdicts, comparison.news, words)


def write_files(verdicts: List[Verdict], words: argparse.Namespace, seconds: float) -> None:
    """Writes the files that are asked for."""
    title = os.path.basename(words.tested)
    cases = viewer_page(verdicts) if words.beside else None
    path_of_cases = words.beside.paths()[0] if cases else ''
    texts = ((words.page, page(verdicts, title, os.path.basename(path_of_cases))), (words.json, report.as_json(verdicts)),
             (words.junit, report.junit(verdicts, seconds)), (words.keep_expected, expected.kept(verdicts)))
    files = [Content(path, text.encode(errors='replace'), is_text=True) for path, text in texts if path]
    write_several([*files, Content(path_of_cases, cases, is_text=True)] if cases else files)


def test_player(words: argparse.Namespace, tests: List[Test]) -> int:
    """Runs the tests, and prints and writes what is found. Returns the status."""
    tested = player_of(words.tested)
    known = expected.read_known(words.expect) if words.expect else {}
    start = time.monotonic()
    verdicts = run_tests(tests, tested, words.jobs, words.seconds)
    seconds = time.monotonic() - start
    status = show(verdicts, words, known)
    if sys.stderr.isatty():
        print('%d tests in %.1f seconds' % (len(verdicts), seconds), file=sys.stderr)
    write_files(verdicts, words, seconds)
    if words.reduce:
        print('\n'.join(reducing.reduce_all(verdicts, tested, words.reduce, words.player)))
    return status


def run(words: argparse.Namespace) -> int:
    """Runs the command."""
    tests = chosen(words.only)
    if words.version:
        print(version())
    elif words.list:
        for test in tests:
            print('%-42s %-8s %-7s %s' % (test.full_name, test.decides, test.worked, test.says))
    elif words.write:
        for line in folder.write(tests, words.write, folder.found_program(words.player), words.exe):
            print('%s: %s' % (words.write, line), file=sys.stderr)
    elif words.tested is None:
        raise ToolError('name a player: `psxgpu conform --help` explains the arguments')
    else:
        return test_player(words, tests)
    return SAME
