"""Copies of the repository in which a crate is built while others are.

`rt` locks a crate and all below it, so that one checkout can build only one crate at a time. So each is built in
out/first/NAME, over copies of the sources and of the libraries below it. What it keeps (crates/NAME/out) is moved there
and back.
"""
import contextlib
import fcntl
import os
import shutil
from typing import Iterator, List

from proving.plan import PARTS, ROOT

PLACE = os.path.join(ROOT, 'out', 'first')


@contextlib.contextmanager
def alone_in(name: str, waits: bool = True) -> Iterator[bool]:
    """Keeps other commands out of a crate's folder, as `rt` does. Gives whether it could; with `waits`, it could."""
    folder = os.open(os.path.join(ROOT, 'crates', name), os.O_RDONLY)
    try:
        fcntl.flock(folder, fcntl.LOCK_EX | (0 if waits else fcntl.LOCK_NB))
        yield True
    except BlockingIOError:
        yield False
    finally:
        os.close(folder)


def put_back(name: str) -> None:
    """Moves what a crate keeps from its copy to the checkout, and removes the copy."""
    copy = os.path.join(PLACE, name)
    made, kept = os.path.join(copy, 'crates', name, 'out'), os.path.join(ROOT, 'crates', name, 'out')
    if os.path.isdir(made):
        for it in os.listdir(made):
            to = os.path.join(kept, it)
            if os.path.isdir(to) and not os.path.islink(to):
                shutil.rmtree(to)
            os.makedirs(kept, exist_ok=True)
            os.replace(os.path.join(made, it), to)
    shutil.rmtree(copy, ignore_errors=True)


def restore() -> None:
    """Puts back what a run that was killed left, but for crates in which another command works."""
    for name in os.listdir(PLACE) if os.path.isdir(PLACE) else []:
        if not os.path.isdir(os.path.join(ROOT, 'crates', name)):
            shutil.rmtree(os.path.join(PLACE, name))
            continue
        with alone_in(name, waits=False) as is_alone:
            if is_alone:
                put_back(name)
    with contextlib.suppress(OSError):
        os.rmdir(PLACE)


def link(one: str, other: str) -> None:
    """Gives a file a second name, or copies it where the file system has no such names."""
    try:
        os.link(one, other)
    except OSError:
        shutil.copy2(one, other)


def lay_out(name: str, below: List[str]) -> str:
    """Makes the copy in which a crate is built, over the libraries below it, and returns the crate's folder in it."""
    copy, crates = os.path.join(PLACE, name), os.path.join(ROOT, 'crates')
    put_back(name)
    for crate in [*below, name]:
        to = os.path.join(copy, 'crates', crate)
        for part in PARTS:
            if os.path.isdir(os.path.join(crates, crate, part)):
                shutil.copytree(os.path.join(crates, crate, part), os.path.join(to, part))
        if crate != name:
            shutil.copytree(os.path.join(crates, crate, 'out', 'rlib'), os.path.join(to, 'out', 'rlib'),
                            copy_function=link)
    with open(os.path.join(ROOT, 'crates.txt'), encoding='utf-8') as file:
        rows = [line for line in file if line.split(':')[0].strip() in (*below, name)]
    with open(os.path.join(copy, 'crates.txt'), 'w', encoding='utf-8') as file:
        file.writelines(rows)
    kept = os.path.join(crates, name, 'out')
    if os.path.isdir(kept):
        os.replace(kept, os.path.join(copy, 'crates', name, 'out'))
    return os.path.join(copy, 'crates', name)
