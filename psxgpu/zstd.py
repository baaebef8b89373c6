"""Files of zstd (.zst), read and written by the program `zstd`, or by a module where there is no program: Python's own
from 3.14 on, or `zstandard`. If there is none of them, `ToolError` names the package."""
from __future__ import annotations

import contextlib
import importlib
import re
import shutil
import subprocess
import tempfile
from typing import IO, Any, Iterator, Optional

from psxgpu.errors import ToolError

MISSING = '%s: a zstd file: install the package zstd, or python3-zstandard'
LEVEL = 3
PART = 1 << 12                  # packed bytes that a module takes at a time: what they unpack to is held


class ZstdFault(ValueError):
    """The bytes are no whole zstd file. Its text is the reason."""


class Child:
    """What a run of the program writes, to be read as it comes."""

    def __init__(self, child: subprocess.Popen[bytes], said: IO[bytes]) -> None:
        self.child, self.said = child, said

    def read1(self, n: int) -> bytes:
        """Returns at most `n` bytes. Raises `ZstdFault` at the end of what it writes, if the program fails."""
        pipe: Any = self.child.stdout
        piece: bytes = pipe.read1(n)
        if not piece and self.child.wait():
            raise ZstdFault(reason(self.child, self.said))
        return piece


class Own:
    """What Python's own module unpacks, from 3.14 on."""

    def __init__(self, module: Any, packed: IO[bytes]) -> None:
        self.file, self.error = module.ZstdFile(packed), module.ZstdError

    def read1(self, n: int) -> bytes:
        """Returns at most `n` bytes. Raises `ZstdFault` if the packed bytes are at fault."""
        try:
            return bytes(self.file.read1(n))
        except (EOFError, self.error) as fault:
            raise ZstdFault(str(fault)) from None


class Frames:
    """What the module `zstandard` unpacks, frame after frame."""

    def __init__(self, module: Any, packed: IO[bytes]) -> None:
        self.module, self.packed = module, packed
        self.frame: Optional[Any] = None

    def more(self) -> bytes:
        """Returns packed bytes for the frame, a new one if the last one has ended; nothing at the end of the file."""
        rest: bytes = self.frame.unused_data if self.frame and self.frame.eof else b''
        data = rest or self.packed.read(PART)
        if not data and self.frame and not self.frame.eof:
            raise ZstdFault('the file ends inside a frame')
        if data and (self.frame is None or self.frame.eof):
            self.frame = self.module.ZstdDecompressor().decompressobj()
        return data

    def read1(self, _: int) -> bytes:
        """Returns what the next packed bytes unpack to. Raises `ZstdFault` if they are at fault."""
        out = b''
        while not out:
            data = self.more()
            if not data:
                break
            assert self.frame
            try:
                out = bytes(self.frame.decompress(data))
            except self.module.ZstdError as fault:
                raise ZstdFault(str(fault)) from None
        return out


def reason(child: subprocess.Popen[bytes], said: IO[bytes]) -> str:
    """Returns why the program failed: its first line, without the name that it has for the file."""
    said.seek(0)
    line = said.read().decode(errors='replace').strip().split('\n')[0]
    return re.sub(r'^.*/\*stdin\*\\ *: *', '', line) or 'zstd ends with status %d' % child.returncode


def module() -> Optional[Any]:
    """Returns a module that knows zstd, if there is one."""
    for name in ('compression.zstd', 'zstandard'):
        with contextlib.suppress(ImportError):
            return importlib.import_module(name)
    return None


@contextlib.contextmanager
def started(words: list[str], **streams: Any) -> Iterator[tuple[subprocess.Popen[bytes], IO[bytes]]]:
    """A run of the program, ended with the block, and what it says."""
    with tempfile.TemporaryFile(prefix='psxgpu') as said:
        child = subprocess.Popen(['zstd', '-q', *words], stderr=said, **streams)
        try:
            yield child, said
        finally:
            for pipe in filter(None, (child.stdin, child.stdout)):
                with contextlib.suppress(BrokenPipeError):
                    pipe.close()
            child.wait()


@contextlib.contextmanager
def zstd_reader(packed: IO[bytes], name: str) -> Iterator[Child | Own | Frames]:
    """The unpacked bytes of a file of the disk, by `read1`."""
    if shutil.which('zstd'):
        with started(['-dc'], stdin=packed, stdout=subprocess.PIPE) as run:
            yield Child(*run)
        return
    found = module()
    if found is None:
        raise ToolError(MISSING % name)
    yield Own(found, packed) if hasattr(found, 'ZstdFile') else Frames(found, packed)


@contextlib.contextmanager
def zstd_writer(raw: IO[bytes], name: str) -> Iterator[IO[bytes]]:
    """A file to write to, which is packed into `raw`."""
    if shutil.which('zstd'):
        with started(['-c', '--single-thread', '-%d' % LEVEL], stdin=subprocess.PIPE, stdout=raw) as (child, said):
            assert child.stdin
            yield child.stdin
            child.stdin.close()
            if child.wait():
                raise ToolError('%s: %s' % (name, reason(child, said)))
        return
    found = module()
    if found is None:
        raise ToolError(MISSING % name)
    own: Any = getattr(found, 'ZstdFile', None)
    with (own(raw, 'wb', level=LEVEL) if own else
          found.ZstdCompressor(LEVEL).stream_writer(raw, closefd=False)) as file:
        yield file
