"""How many processes a tool runs side by side: `--jobs N`. Every number gives the same output."""
import argparse
import collections
import concurrent.futures
import os
from typing import Callable, Deque, Iterable, Iterator, TypeVar

from psxgpu.command import decimal

Item = TypeVar('Item')
Result = TypeVar('Result')


def processors() -> int:
    """Returns how many processors this process may use."""
    try:
        return len(os.sched_getaffinity(0))
    except AttributeError:              # macOS and Windows
        return os.cpu_count() or 1


def argument(parser: argparse.ArgumentParser) -> None:
    """Adds the argument."""
    parser.add_argument('--jobs', type=decimal(1, 256), default=processors(), metavar='N',
                        help='processes that run side by side (default: the number of processors)')


def in_order(jobs: int, work: Callable[[Item], Result], items: Iterable[Item]) -> Iterator[Result]:
    """Yields what `work` returns for each item, in order. At most `jobs` items are worked on or wait, each in a thread:
    for work that mostly waits for players."""
    waiting: "Deque[concurrent.futures.Future[Result]]" = collections.deque()
    with concurrent.futures.ThreadPoolExecutor(jobs) as pool:
        for item in items:
            if len(waiting) == jobs:
                yield waiting.popleft().result()
            waiting.append(pool.submit(work, item))
        while waiting:
            yield waiting.popleft().result()
