"""Changes the model at every place by a small step, and names the changes that no test sees.

    python3 -m suite_trials.mutants              the changes that survive, and how many there were
    python3 -m suite_trials.mutants 5 2          every fifth of them, from the second on

A number is raised by one; a comparison, a sum, a shift or a bit operation becomes its neighbour; `and` becomes `or`; a
condition is turned over. What survives is either the same machine in other words or a rule without a test.
suite_trials/results/SURVIVORS.md has a reason for each. Status: 0 none survives without a reason, 1 some do.
"""
from __future__ import annotations

import ast
import copy
import importlib
import os
import signal
import sys
import time
from types import FrameType, ModuleType
from typing import Any, Dict, Iterator, List, NamedTuple, Set, Tuple

from suite_trials.changing import change, places, text_of
from suite_trials.model import Model
from psxgpu.conformance.chapters import CHAPTERS
from psxgpu.conformance.judging import PASSED, Judge
from psxgpu.conformance.suite import Test

HERE = os.path.dirname(os.path.abspath(__file__))
MODULES = ('values', 'state', 'registers', 'transfers', 'textures', 'pixels', 'polygons', 'lines', 'rectangles',
           'packets', 'dma', 'machine')
REASONS = os.path.join(HERE, 'results', 'SURVIVORS.md')
SECONDS = 2             # of the processor for a test: a change that makes the model run on is seen


class Endless(Exception):
    """The model did not come to an end."""


def ends(*_: object) -> None:
    """The processor's time is over."""
    raise Endless


class Owner(NamedTuple):
    """A function, or a constant of a module: its module, its class if it has one, its name, and its source."""
    module: ModuleType
    scope: Any
    name: str
    node: ast.stmt

    @property
    def title(self) -> str:
        """The name, with its class if it is that of a constructor."""
        return '%s.%s' % (self.scope.__name__, self.name) if self.name == '__init__' else self.name


def owners() -> Iterator[Owner]:
    """Yields each function and each constant of the model."""
    for name in MODULES:
        module = importlib.import_module('suite_trials.model.' + name)
        with open(os.path.join(HERE, 'model', name + '.py')) as file:
            body = ast.parse(file.read()).body
        for node in body:
            if isinstance(node, ast.ClassDef):
                scope = getattr(module, node.name)
                yield from (Owner(module, scope, one.name, one) for one in node.body
                            if isinstance(one, ast.FunctionDef))
            elif isinstance(node, ast.FunctionDef):
                yield Owner(module, None, node.name, node)
            elif isinstance(node, ast.Assign) and isinstance(node.targets[0], ast.Name):
                yield Owner(module, None, node.targets[0].id, node)


def changes(owner: Owner) -> Iterator[Tuple[str, ast.stmt]]:
    """Yields each change of an owner: a name (owner, number in it, text before and after), and the new source."""
    for at, node in enumerate(places(owner.node)):
        other = copy.deepcopy(owner.node)
        there = places(other)[at]
        change(there)
        yield '%s %d: %s -> %s' % (owner.title, at + 1, text_of(node), text_of(there)), other


def made(owner: Owner, node: ast.stmt) -> Any:
    """Returns the function or the constant of a source."""
    future = ast.ImportFrom('__future__', [ast.alias('annotations')], 0)
    space = dict(vars(owner.module))
    exec(compile(ast.fix_missing_locations(ast.Module([future, node], [])), 'model', 'exec'), space)
    return space[owner.name]


def put(owner: Owner, value: Any) -> None:
    """Puts a function or a constant into the model: into its class, or into each module that has the name."""
    if owner.scope is not None:
        setattr(owner.scope, owner.name, value)
        return
    for name in MODULES:
        module = importlib.import_module('suite_trials.model.' + name)
        if hasattr(module, owner.name):
            setattr(module, owner.name, value)


class Tests:
    """The tests, the quickest first, and which functions of the model each of them calls."""

    def __init__(self) -> None:
        self.judge = Judge(Model())
        cost: Dict[Test, float] = {}
        self.called: Dict[str, Set[str]] = {}
        for test in (test for chapter in CHAPTERS for test in chapter.tests):
            start = time.process_time()
            if not self.passes(test):
                raise SystemExit('the model fails %s' % test.full_name)
            cost[test] = time.process_time() - start
        self.all = sorted(cost, key=lambda test: cost[test])
        for test in self.all:
            self.called[test.full_name] = self.calls(test)

    def passes(self, test: Test, seconds: float = SECONDS) -> bool:
        """Returns whether the model passes a test, within seconds of the processor unless they are 0."""
        self.judge.player = Model()
        signal.setitimer(signal.ITIMER_VIRTUAL, seconds)
        try:
            return self.judge.judge(test).kind == PASSED
        finally:
            signal.setitimer(signal.ITIMER_VIRTUAL, 0)

    def calls(self, test: Test) -> Set[str]:
        """Returns the names of the functions of the model that a test calls."""
        found: Set[str] = set()

        def note(frame: FrameType, event: str, _: object) -> None:
            if event == 'call' and os.sep + 'model' + os.sep in frame.f_code.co_filename:
                found.add(frame.f_code.co_name)
        sys.setprofile(note)
        try:
            self.passes(test, 0)
        finally:
            sys.setprofile(None)
        return found

    def of(self, owner: Owner) -> List[Test]:
        """Returns the tests that call a function; all tests for a constant."""
        if isinstance(owner.node, ast.Assign):
            return self.all
        return [test for test in self.all if owner.name in self.called[test.full_name]]

    def see(self, owner: Owner, node: ast.stmt) -> bool:
        """Returns whether a test fails with a new source of an owner."""
        old = getattr(owner.scope or owner.module, owner.name)
        try:
            put(owner, made(owner, node))
            return not all(self.passes(test) for test in self.of(owner))
        except Exception:           # a machine that breaks is seen
            return True
        finally:
            put(owner, old)


def survivors(step: int, first: int) -> Iterator[Tuple[str, bool]]:
    """Yields each change that is tried, and whether it survives. Functions that few tests call come first."""
    tests, at = Tests(), 0
    for owner in sorted(owners(), key=lambda owner: len(tests.of(owner))):
        for name, node in changes(owner):
            at += 1
            if at >= first and (at - first) % step == 0:
                yield name, not tests.see(owner, node)


def main() -> int:
    """Prints the survivors. Returns the status."""
    step, first = (int(sys.argv[1]), int(sys.argv[2])) if len(sys.argv) == 3 else (1, 1)
    signal.signal(signal.SIGVTALRM, ends)
    with open(REASONS) as file:
        reasons = file.read()
    count, alive, bare = 0, 0, 0
    for name, survives in survivors(step, first):
        count += 1
        if survives:
            alive += 1
            has_reason = '`%s`' % name in reasons
            bare += not has_reason
            print(name + ('' if has_reason else ' **no reason**'), flush=True)
    print('%d changes, %d survive, %d without a reason' % (count, alive, bare))
    return int(bare > 0)


if __name__ == '__main__':
    sys.exit(main())
