"""Files that are written: each appears under its name only when it is whole.

`writing` opens a file beside the target and renames it at the end. A run that fails or is interrupted leaves the old
file as it was. A device, a pipe and `-` (standard output) cannot be replaced: they are written straight.
"""
import contextlib
import errno
import io
import os
import re
import stat
import sys
from typing import BinaryIO, Iterable, Iterator, NamedTuple, Optional, Tuple, cast

from psxgpu.errors import ToolError, named

BINARY = 'the output is binary: redirect it to a file or a program, as in > FILE'
STREAMS = {'-': 1, '/dev/stdout': 1, '/dev/stderr': 2}


class Written(io.FileIO):
    """A file whose failures have its name, so that they are not taken for those of an input."""

    def __init__(self, descriptor: int, title: str) -> None:
        super().__init__(descriptor, 'wb')
        self.title = title

    def write(self, data: object) -> int:
        """Writes bytes. Returns how many."""
        try:
            return super().write(data)  # type: ignore[arg-type]
        except OSError as error:
            named(error, self.title)
            raise


def stream_of(path: str) -> Optional[int]:
    """Returns the descriptor that a path like `-` or `/dev/fd/3` names, or None for a path of a file."""
    number = re.fullmatch(r'/(?:dev|proc/self)/fd/(\d{1,9})', path)
    return int(number[1]) if number else STREAMS.get(path)


def status_of(path: str, stream: Optional[int]) -> Optional[os.stat_result]:
    """Returns the status of a file or of a stream, or None if there is no such file or the stream is closed."""
    with contextlib.suppress(FileNotFoundError if stream is None else OSError):
        return os.stat(path if stream is None else stream)
    return None


def refuse_inputs(path: str, inputs: Iterable[str]) -> None:
    """Raises ToolError if an output is also one of the inputs. Call it before anything is opened."""
    target = status_of(path, stream_of(path))
    for name in inputs:
        source = status_of(name, 0 if name == '-' else None)
        if source and target and stat.S_ISREG(source.st_mode) and os.path.samestat(source, target):
            raise ToolError('%s is also the input: name another output' % ('standard output' if path == '-' else path))


@contextlib.contextmanager
def straight(descriptor: int, title: str, is_text: bool) -> Iterator[BinaryIO]:
    """Writes to a device, a pipe or a stream, and closes `descriptor`."""
    with Written(descriptor, title) as raw:
        if raw.isatty() and not is_text:
            raise ToolError(BINARY)
        with io.BufferedWriter(raw) as file:
            yield cast(BinaryIO, file)


@contextlib.contextmanager
def part_of(path: str, old: Optional[os.stat_result]) -> Iterator[Tuple[str, int]]:
    """A new file in the folder of `path`, with the same ending: its path and its descriptor, which the block closes.
    It is renamed to `path` at the end of the block. If the block raises, it is removed. `old`: as in `replacing`."""
    target = os.path.realpath(path)
    part = os.path.join(os.path.dirname(target), '.psxgpu-%s.part%s' % (os.urandom(6).hex(), os.path.splitext(path)[1]))
    try:
        descriptor = os.open(part, os.O_WRONLY | os.O_CREAT | os.O_EXCL, stat.S_IMODE(old.st_mode) if old else 0o666)
        yield part, descriptor
        os.replace(part, target)
    except BaseException as error:
        with contextlib.suppress(OSError):
            os.remove(part)
        if isinstance(error, OSError) and error.filename == part:
            error.filename, error.filename2 = path, None
        raise


def take_place(descriptor: int, old: Optional[os.stat_result]) -> None:
    """Gives a new file the owner and the mode bits of the old one, as far as the user may, and puts it on the disk."""
    if old:
        with contextlib.suppress(OSError):
            os.fchown(descriptor, old.st_uid, old.st_gid)
        with contextlib.suppress(OSError):
            os.fchmod(descriptor, stat.S_IMODE(old.st_mode))
        os.fsync(descriptor)


def refuse_name(path: str, old: Optional[os.stat_result]) -> None:
    """Raises OSError if a regular file cannot have this name, or an old one may not be written."""
    number = 0
    if not os.path.basename(path):
        number = errno.EISDIR if path else errno.ENOENT
    elif old and not os.access(path, os.W_OK):
        number = errno.EACCES
    if number:
        raise OSError(number, os.strerror(number), path)


@contextlib.contextmanager
def replacing(path: str, old: Optional[os.stat_result]) -> Iterator[BinaryIO]:
    """Writes a regular file. `old`: the status of the file that has the name until then."""
    refuse_name(path, old)
    with part_of(path, old) as (_, descriptor), io.BufferedWriter(Written(descriptor, path)) as file:
        yield cast(BinaryIO, file)
        file.flush()
        take_place(descriptor, old)


@contextlib.contextmanager
def written_by_name(path: str, inputs: Iterable[str] = ()) -> Iterator[str]:
    """The path of a file for a program to write, with the ending of `path`. It becomes `path` at the end of the block,
    as with `writing`. Raises ToolError if `path` is one of `inputs`, a device, a pipe or `-`."""
    refuse_inputs(path, inputs)
    old = status_of(path, None)
    if stream_of(path) is not None or old and not stat.S_ISREG(old.st_mode):
        raise ToolError('%s: name a file: it is not written straight through' % path)
    refuse_name(path, old)
    with part_of(path, old) as (part, descriptor):
        try:
            yield part
            take_place(descriptor, old)
        finally:
            os.close(descriptor)


@contextlib.contextmanager
def writing(path: str, inputs: Iterable[str] = (), is_text: bool = False) -> Iterator[BinaryIO]:
    """A file to write bytes to; `-` is standard output.

    The file gets its name at the end of the block. If the block raises, the old file stays. A new file has the mode
    bits of the old one, and a symbolic link keeps leading to it. Raises ToolError if the output is one of the paths
    `inputs`, and if bytes that are not text (`is_text`) would go to a terminal.
    """
    refuse_inputs(path, inputs)
    stream = stream_of(path)
    if stream is not None:
        if sys.stdout is not None:
            sys.stdout.flush()
        title = 'standard output' if path == '-' else path
        try:
            descriptor = os.dup(stream)
        except OSError as error:
            named(error, title)
            raise
        with straight(descriptor, title, is_text) as file:
            yield file
        return
    old = status_of(path, None)
    if old and not stat.S_ISREG(old.st_mode):
        with straight(os.open(path, os.O_WRONLY), path, is_text) as file:
            yield file
    else:
        with replacing(path, old) as file:
            yield file


def write_whole(path: str, data: bytes, inputs: Iterable[str] = (), is_text: bool = False) -> None:
    """Writes a file at once, as `writing` does."""
    with writing(path, inputs, is_text) as file:
        file.write(data)


class Content(NamedTuple):
    """A file to write: its path, its bytes, and whether these are text."""
    path: str
    data: bytes
    is_text: bool = False


def write_several(contents: Iterable[Content], inputs: Iterable[str] = ()) -> None:
    """Writes several files. None gets its name before all are written."""
    inputs = list(inputs)
    with contextlib.ExitStack() as stack:
        for path, data, is_text in contents:
            file = stack.enter_context(writing(path, inputs, is_text))
            file.write(data)
            file.flush()


@contextlib.contextmanager
def appending(path: str) -> Iterator[BinaryIO]:
    """The end of a file that this package wrote, to add bytes to."""
    try:
        with open(path, 'ab') as file:
            yield file
    except OSError as error:
        named(error, path)
        raise


def remove(path: str) -> None:
    """Removes a file that this package wrote."""
    os.remove(path)


def silence(descriptor: int) -> None:
    """Lets what is written to a descriptor go nowhere."""
    os.dup2(os.open(os.devnull, os.O_WRONLY), descriptor)
