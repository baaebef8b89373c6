"""Refuses outputs that would lose a file: one that is an input, two that are one, a folder with files of a user."""
import contextlib
import errno
import os
import re
import shlex
import shutil
import stat
from typing import Iterable, Iterator, List, Optional, Sequence, Tuple

from psxgpu.errors import ToolError, title
from psxgpu.output.files import BINARY, status_of, stream_of
from psxgpu.output.folders import refuse_foreign
from psxgpu.output.roles import STANDARD_OUTPUT, Command, Grown, Packed, Picture, Role, Source, Stem, Target, Tree


def files_of(command: str) -> List[str]:
    """Returns the files that a command names: its program and its words."""
    try:
        words = [command, *shlex.split(command)]
    except ValueError:
        words = [command]
    program = shutil.which(words[1]) if len(words) > 1 else None
    return [word for word in words if os.path.isfile(word)] + ([program] if program else [])


def read_paths(roles: Iterable[Role]) -> List[str]:
    """Returns the paths of what is read."""
    paths: List[str] = []
    for role in roles:
        if isinstance(role, Command):
            paths += files_of(role)
        elif isinstance(role, Source):
            paths.append(role)
    return paths


def real_path(path: str) -> str:
    """Returns the path without links; for `-` that of the file that is standard input, if it is one."""
    return os.path.realpath('/dev/stdin' if path == '-' else path)


def is_inside(path: str, folder: str) -> bool:
    """Returns whether a path is a folder, or within it."""
    inner, outer = real_path(path), real_path(folder)
    return inner == outer or inner.startswith(os.path.join(outer, ''))


def identity(path: str) -> Optional[Tuple[object, ...]]:
    """Returns what two names of one regular file share; None for a device, a pipe or a stream that is none."""
    found = status_of(path, stream_of(path))
    if found is None:
        return (real_path(path),) if stream_of(path) is None else None
    return (found.st_dev, found.st_ino) if stat.S_ISREG(found.st_mode) else None


def refuse_place(path: str) -> None:
    """Raises OSError if there is no folder for a file."""
    folder = os.path.dirname(path)
    if path and stream_of(path) is None and folder and not os.path.isdir(folder):
        number = errno.ENOTDIR if os.path.exists(folder) else errno.ENOENT
        raise OSError(number, os.strerror(number), path)


def refuse_terminal(path: str) -> None:
    """Raises ToolError if bytes that are not text would go to a terminal."""
    stream = stream_of(path)
    with contextlib.suppress(OSError):
        if isinstance(path, (Packed, Picture)) and stream is not None and os.isatty(stream):
            raise ToolError(BINARY)


def refuse_stem(name: Stem) -> None:
    """Raises ToolError if files of these names are there that were not written by the same tool."""
    there = [path for path in name.paths() if os.path.lexists(path)]
    if not there:
        return
    with contextlib.suppress(OSError), open(name + name.proof[0], 'rb') as file:
        if re.match(name.proof[1], file.readline().decode(errors='replace')):
            return
    raise ToolError('%s is there, and this tool did not write it: name another output with -o' % there[0])


def outputs_of(roles: Iterable[Role]) -> Iterator[Tuple[str, bool]]:
    """Yields each file that is written, and whether it may be one that is read."""
    for role in roles:
        if isinstance(role, Stem):
            yield from ((path, False) for path in role.paths())
        elif isinstance(role, Target):
            yield role, isinstance(role, Grown)


def check(roles: Iterable[Role], inputs: Iterable[str] = ()) -> None:
    """Raises ToolError if an output is one of the files that are read (`inputs`: more of them), if two outputs are one,
    or if a folder has files that its tool did not write. Call it before anything is opened."""
    roles = list(roles)
    read = read_paths(roles) + list(inputs)
    known = {identity(path) for path in read if path != '-' and os.path.isfile(path)}
    known |= {identity('/dev/stdin')} if '-' in read else set()
    trees = [role for role in roles if isinstance(role, Tree)]
    for folder in trees:
        check_tree(folder, read)
    if identity('-') is not None and identity('-') in known:
        raise ToolError('standard output is also the input: name another output')
    check_files(list(outputs_of(roles)), known, trees)
    for role in roles:
        if isinstance(role, Stem):
            refuse_stem(role)


def check_tree(folder: Tree, read: Iterable[str]) -> None:
    """Raises ToolError if a folder contains a file that is read, or has files that its tool did not write."""
    for path in read:
        if is_inside(path, folder) and (path == '-' or os.path.exists(path)):
            raise ToolError('%s: the folder contains the input %s: name another folder' % (folder, title(path)))
    refuse_foreign(folder, folder.maker)


def check_files(outputs: Sequence[Tuple[str, bool]], known: Iterable[object], trees: Sequence[Tree]) -> None:
    """Raises ToolError if a file that is written is one of `known`, another one, standard output, or within a folder
    that is written."""
    seen = {identity('-'): '-'} if identity('-') else {}
    streams = 0
    for path, may_be_read in outputs:
        refuse_place(path)
        refuse_terminal(path)
        is_output, key = stream_of(path) == STANDARD_OUTPUT, identity(path)
        streams += is_output
        name = 'standard output' if path == '-' else path
        if key and key in known and not may_be_read:
            raise ToolError('%s is also the input: name another output' % name)
        if streams > 1 or key in seen and key is not None and not is_output:
            raise ToolError('%s: named for two outputs: name another output' % name)
        seen[key] = path
        for folder in trees:
            if stream_of(path) is None and is_inside(path, folder):
                raise ToolError('%s is within %s, which is written, too: name another output'
                                % (path, folder))
