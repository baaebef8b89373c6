#!/usr/bin/env python3
"""Proves the libraries that the program stands on, and says how far it is.

    python3 -m proving.progress [--top CRATE] [JOBS]

What takes long is proving. The libraries below CRATE (psxgpu_tool) are proved, and no others. Those that don't need one
another are proved side by side: as many as there are processors, or JOBS, and as memory holds. A line for each says how
many are left. What is proved stays in crates/*/out: a run that was interrupted goes on where it was, and crates that
have not changed take no time.

Each crate is built in a copy of the sources (copies.py), since `rt` builds one crate of a checkout at a time. What
it keeps is moved back at its end, and at an interrupt. Status: 0, or 1 where a crate is not proved.
"""
import argparse
import os
import signal
import subprocess
import sys
import threading
import time
from concurrent.futures import FIRST_COMPLETED, Future, ThreadPoolExecutor, wait
from typing import Dict, List, Tuple

from proving.copies import alone_in, lay_out, put_back, restore
from proving.plan import ROOT, Plan, all_below, is_known, read_crates

QUIET = 60


def clock(seconds: float) -> str:
    """Returns minutes and seconds, as 3:07."""
    return '%d:%02d' % (seconds // 60, seconds % 60)


class Builder:
    """Builds crates in threads, and ends them all at an interrupt."""

    def __init__(self, needs: Dict[str, List[str]]):
        self.needs, self.lock, self.stopped = needs, threading.Lock(), False
        self.children: Dict[str, 'subprocess.Popen[str]'] = {}

    def build(self, name: str, jobs: int) -> Tuple[int, str]:
        """Builds a crate; returns the status of `rt` and what it said. One that was killed, for memory it may be, is
        built once more by one processor."""
        with alone_in(name):
            try:
                folder = lay_out(name, all_below(self.needs, name))
                status, said = self.run(name, folder, jobs)
                if status == -signal.SIGKILL:
                    status, said = self.run(name, folder, 1)
            finally:
                put_back(name)
            stamp = os.path.join(ROOT, 'crates', name, 'out', 'rlib', 'stamp')
            if status == 0 and os.path.exists(stamp):
                os.utime(stamp)
            return status, said

    def run(self, name: str, folder: str, jobs: int) -> Tuple[int, str]:
        """Runs `rt` in a crate's folder."""
        with self.lock:
            if self.stopped:
                return 1, ''
            child = self.children[name] = subprocess.Popen(
                ['rt', 'lib', '--jobs', str(jobs)], cwd=folder, text=True, errors='replace', stdin=subprocess.DEVNULL,
                stdout=subprocess.PIPE, stderr=subprocess.STDOUT, start_new_session=True)
        said, _ = child.communicate()
        return child.returncode, said

    def stop(self) -> None:
        """Ends what runs, and begins no more."""
        with self.lock:
            self.stopped = True
        for child in self.children.values():
            if child.poll() is None:
                os.killpg(child.pid, signal.SIGTERM)


def reason(said: str) -> str:
    """Returns what `rt` said of a crate that is not proved, without the lines of what is."""
    lines = said.splitlines(True)
    return ''.join(it for it in lines if not it.startswith('statements ') and not it.endswith(': proved\n'))


def prove(plan: Plan, builder: Builder) -> bool:
    """Builds all crates of the plan, and says of each that it is built, or why not. Returns whether all are. After one
    that is not, those that run are ended, and no other is begun."""
    start, total, well = time.monotonic(), len(plan.left), True
    tasks: Dict['Future[Tuple[int, str]]', str] = {}
    with ThreadPoolExecutor(plan.lanes) as pool:
        try:
            while True:
                following = plan.begin() if well else None
                while following:
                    tasks[pool.submit(builder.build, *following)] = following[0]
                    following = plan.begin()
                if not tasks:
                    return well
                ended = wait(tasks, timeout=QUIET, return_when=FIRST_COMPLETED).done
                past = clock(time.monotonic() - start)
                for task in ended:
                    name = tasks.pop(task)
                    status, said = task.result()
                    if status and well:
                        builder.stop()
                        sys.stderr.write('%s is not proved:\n%s' % (name, reason(said)))
                    well = well and not status
                    if status:
                        continue
                    plan.end(name)
                    print('%s: %d of %d, %d left, %s' % (name, len(plan.done), total, total - len(plan.done), past),
                          flush=True)
                if not ended:
                    print('%d left, at %s, %s' % (total - len(plan.done), ' '.join(sorted(plan.running)), past),
                          flush=True)
        except KeyboardInterrupt:
            builder.stop()
            raise


def interrupt(*_: object) -> None:
    """Ends the run as Ctrl-C does."""
    raise KeyboardInterrupt


def main() -> int:
    """Proves what is left, and returns the status."""
    words = argparse.ArgumentParser(description='Proves the libraries that a crate stands on.')
    words.add_argument('--top', default='psxgpu_tool', metavar='CRATE', help='the crate (psxgpu_tool)')
    words.add_argument('jobs', nargs='?', type=int, metavar='JOBS', help='how many crates at a time')
    given = words.parse_args()
    needs = read_crates()
    if given.top not in needs or given.jobs is not None and given.jobs < 1:
        words.error('CRATE is a crate of crates.txt, and JOBS 1 or more')
    restore()
    subprocess.run([sys.executable, '-m', 'proving.kept', given.top], cwd=ROOT, check=False)
    left: List[str] = []
    for name in all_below(needs, given.top):
        if not is_known(name) or {*all_below(needs, name)} & {*left}:
            left.append(name)
    if not left:
        return 0
    plan, builder = Plan(needs, left, given.jobs), Builder(needs)
    print('Proving %d of the %d crates below %s, up to %d at a time: some %d minutes. What is done is kept:\n'
          'run it again to go on where it was.' % (len(left), len(all_below(needs, given.top)), given.top, plan.lanes,
                                                   plan.minutes(given.top)), flush=True)
    signal.signal(signal.SIGTERM, interrupt)
    try:
        well = prove(plan, builder)
    except KeyboardInterrupt:
        print('interrupted after %d of %d crates; run it again to go on' % (len(plan.done), len(left)),
              file=sys.stderr)
        return 1
    finally:
        restore()
    if well:
        print('%s itself is proved and compiled now.' % given.top, flush=True)
    return 0 if well else 1


if __name__ == '__main__':
    sys.exit(main())
