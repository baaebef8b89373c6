"""Folders that are written: new, empty, or written by the same tool before. A file in the folder (MARK) has the name of
the tool and the files that it wrote, so no file of a user is replaced.

    with folder(words.output) as out:
        out.put('index.html', page)

All files are written beside the folder, or in a folder within it, and get their names at the end of the block. If the
block raises, the folder stays as it was.
"""
from __future__ import annotations

import contextlib
import errno
import os
import shutil
from typing import BinaryIO, Iterable, Iterator, List, Set

from psxgpu.output.files import write_whole
from psxgpu.errors import ToolError, named

MARK = '.psxgpu-output'


def mark_of(path: str) -> List[str]:
    """Returns the lines of the mark of a folder: its tool, and the files that it wrote; none if there is no mark."""
    with contextlib.suppress(OSError), open(os.path.join(path, MARK), 'rb') as file:
        return os.fsdecode(file.read()).splitlines()
    return []


def is_made_by(path: str, maker: str) -> bool:
    """Returns whether a tool wrote a folder."""
    return mark_of(path)[:1] == [maker]


def refuse_foreign(path: str, maker: str) -> None:
    """Raises ToolError if a folder has files and was not written by `maker`, OSError if it is not a folder."""
    if not path:
        raise OSError(errno.ENOENT, os.strerror(errno.ENOENT), path)
    if not os.path.lexists(path):
        return
    if not os.path.isdir(path):
        raise OSError(errno.ENOTDIR, os.strerror(errno.ENOTDIR), path)
    if os.listdir(path) and not is_made_by(path, maker):
        raise ToolError('%s: the folder has files that %s did not write: name a new or an empty folder' % (path, maker))


class Folder:
    """A folder that is being written. `stage`: where its files are until the end."""

    def __init__(self, path: str, maker: str, stage: str) -> None:
        self.path, self.maker, self.stage = path, maker, stage
        self.names: Set[str] = set()

    @contextlib.contextmanager
    def writing(self, name: str) -> Iterator[BinaryIO]:
        """A file to write bytes to; `/` in its name makes folders."""
        place = os.path.join(self.stage, name)
        try:
            os.makedirs(os.path.dirname(place), exist_ok=True)
            with open(place, 'xb') as file:
                yield file
        except OSError as error:
            if error.filename in (None, place):
                error.filename, error.filename2 = os.path.join(self.path, name), None
            raise
        self.names.add(name)

    def put(self, name: str, data: bytes) -> str:
        """Writes a file. Returns the path that it gets."""
        with self.writing(name) as file:
            file.write(data)
        return os.path.join(self.path, name)

    def keep(self, *names: str) -> str:
        """Lets the folder have files of these names now, which the caller writes. Returns the path of the first."""
        os.makedirs(self.path, exist_ok=True)
        self.mark(names)
        return os.path.join(self.path, names[0])

    def make(self, name: str) -> None:
        """Makes a folder within it, for files that the caller writes."""
        os.makedirs(os.path.join(self.path, name), exist_ok=True)

    def mark(self, names: Iterable[str]) -> None:
        """Writes the mark with more names. Raises ToolError if a file of such a name is there that the tool did not
        write."""
        old = set(mark_of(self.path)[1:])
        for name in names:
            if name not in old and os.path.lexists(os.path.join(self.path, name)):
                raise ToolError('%s is there, and %s did not write it: name another folder'
                              % (os.path.join(self.path, name), self.maker))
        text = '\n'.join([self.maker, *sorted(old | set(names))]) + '\n'
        write_whole(os.path.join(self.path, MARK), os.fsencode(text), is_text=True)

    def settle(self) -> None:
        """Gives the files their names."""
        os.makedirs(self.path, exist_ok=True)
        self.mark(self.names)
        for name in sorted(self.names):
            place = os.path.join(self.path, name)
            os.makedirs(os.path.dirname(place), exist_ok=True)
            os.replace(os.path.join(self.stage, name), place)


def stage_of(path: str) -> str:
    """Makes a folder for the files of another one: within it, or where it is going to be. Returns its path."""
    place = os.path.realpath(path)
    while not os.path.isdir(place):
        place = os.path.dirname(place)
    stage = os.path.join(place, '.psxgpu-%s.part' % os.urandom(6).hex())
    try:
        os.mkdir(stage)
    except OSError as error:
        error.filename, error.filename2 = path, None
        raise
    return stage


@contextlib.contextmanager
def folder(path: str, maker: str = '') -> Iterator[Folder]:
    """A folder to write. `maker`: the tool; without it that of `path`, which is then a `roles.Tree`."""
    maker = maker or path.maker     # type: ignore[attr-defined]
    refuse_foreign(path, maker)
    stage = stage_of(path)
    try:
        made = Folder(path, maker, stage)
        yield made
        made.settle()
    except OSError as error:
        raise named(error, path)
    finally:
        shutil.rmtree(stage, ignore_errors=True)
