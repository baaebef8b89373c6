#!/usr/bin/env python3
"""Calls a function of the package side by side, each call in a process of its own: threads of one process share one
interpreter, which does one thing at a time.

    for result in results(4, count_part, [(part,) for part in parts]):
        ..

The function is one of a module. Its arguments and what it returns are copied, by `pickle`. What it starts ends with it.
"""
from __future__ import annotations

import os
import pickle
import subprocess
import sys
from concurrent.futures import ThreadPoolExecutor
from typing import Callable, Iterator, Sequence, Tuple, TypeVar, cast

if __name__ == '__main__':      # the package, and not its folder
    sys.path[0] = os.path.dirname(os.path.dirname(os.path.abspath(__file__)))

from psxgpu import progress
from psxgpu.errors import ToolError, reason_of
from psxgpu.stopping import scratch, session, share_session

Result = TypeVar('Result')


def result_of(function: Callable[..., Result], call: Tuple[object, ...]) -> Result:
    """Returns what a function returns, called in a new process. Raises ToolError for one of it, and for an OSError."""
    with scratch() as err:
        with session([sys.executable, __file__], stdin=subprocess.PIPE, stdout=subprocess.PIPE, stderr=err) as child:
            out, _ = child.communicate(pickle.dumps((function, call)))
        if child.returncode:
            err.seek(0)
            lines = err.read().decode(errors='replace').splitlines()
            raise ToolError('a process of this tool failed: %s' % (lines[-1] if lines else child.returncode))
    is_done, found = pickle.loads(out)
    if not is_done:
        raise ToolError(found)
    return cast(Result, found)


def results(jobs: int, function: Callable[..., Result], calls: Sequence[Tuple[object, ...]]) -> Iterator[Result]:
    """Yields what a function returns for each of the arguments `calls`, in order. At most `jobs` processes run at a
    time."""
    with ThreadPoolExecutor(jobs) as pool:
        waiting = [pool.submit(result_of, function, call) for call in calls]
        try:
            for one in progress.counted(waiting, 'parts'):
                yield one.result()
        finally:
            for one in waiting:
                one.cancel()


def main() -> None:
    """Makes one call: its pickle is standard input. Writes the pickle of whether it was done, and of what it returned
    or of the reason why not."""
    share_session()
    function, call = pickle.load(sys.stdin.buffer)
    try:
        answer = True, function(*call)
    except ToolError as error:
        answer = False, str(error)
    except OSError as error:
        answer = False, reason_of(error)
    pickle.dump(answer, sys.stdout.buffer)


if __name__ == '__main__':
    main()
