"""Compressed files: .gz and .xz by Python itself, .zst by `psxgpu.zstd`.

A file is recognised by its first bytes when it is read, and by the end of its name when it is written.
"""
from __future__ import annotations

import contextlib
import gzip
import lzma
import os
import tempfile
import zlib
from typing import IO, Any, Callable, Iterable, Iterator, Optional, cast

from psxgpu.command import BLOCK, Readable, pour, reading
from psxgpu.output import writing
from psxgpu.errors import ToolError, title
from psxgpu.zstd import ZstdFault, zstd_reader, zstd_writer

GZIP, XZ, ZSTD = b'\x1f\x8b\x08', b'\xfd7zXZ\x00', b'\x28\xb5\x2f\xfd'
PACKED = (GZIP, XZ, ZSTD)
ENDINGS = ('.gz', '.xz', '.zst')
MOST_FIRST = 14                 # bytes of the longest file header that is looked for
FAULTS = (EOFError, gzip.BadGzipFile, zlib.error, lzma.LZMAError, ZstdFault)
GZIP_LEVEL, XZ_PRESET = 4, 1    # a dump of 110 MB is packed within 6 seconds by gzip


class Damaged(ToolError):
    """The contents of a file are at fault, and not the machine. Its text is the reason."""


class Peeked:
    """A file whose first bytes are known: `first` has them until they are read."""

    def __init__(self, file: Readable, count: int = MOST_FIRST) -> None:
        self.file, self.first = file, file.read(count)

    def read(self, n: int = -1, /) -> bytes:
        """Returns the next `n` bytes, the first ones among them."""
        if not self.first:
            return self.file.read(n)
        if 0 <= n <= len(self.first):
            out, self.first = self.first[:n], self.first[n:]
            return out
        out, self.first = self.first, b''
        return out + self.file.read(n - len(out) if n >= 0 else -1)

    def seekable(self) -> bool:
        """Returns False: `lzma` asks."""
        return False

    def readable(self) -> bool:
        """Returns True: `lzma` asks."""
        return True


class Pieces:
    """A file made of pieces: `more()` returns the next one, empty at the end. If it raises, the bytes before that are
    read first, and the next `read` raises."""

    def __init__(self, more: Callable[[], bytes]) -> None:
        self.more = more
        self.rest = bytearray()
        self.fault: Optional[Exception] = None

    def fill(self, n: int) -> None:
        """Takes pieces until there are `n` bytes or no more come."""
        while n < 0 or len(self.rest) < n:
            piece = self.more()
            if not piece:
                return
            self.rest += piece

    def read(self, n: int = -1, /) -> bytes:
        """Returns the next `n` bytes."""
        if self.fault is None:
            try:
                self.fill(n)
            except Exception as fault:
                self.fault = fault
        if self.fault is not None and not self.rest and n:
            raise self.fault
        end = len(self.rest) if n < 0 else n
        out = bytes(self.rest[:end])
        del self.rest[:end]
        return out


class XzFile:
    """Unpacks xz: streams one after another, with zeros between and after them. `lzma.LZMAFile` takes any bytes
    there."""

    def __init__(self, file: Readable) -> None:
        self.file = file
        self.unpacker: Optional[lzma.LZMADecompressor] = lzma.LZMADecompressor(lzma.FORMAT_XZ)
        self.rest = b''

    def next_stream(self) -> bool:
        """Begins the stream after one that ended. Returns whether there is one."""
        zeros = 0
        while True:
            there = self.rest.lstrip(b'\0')
            zeros += len(self.rest) - len(there)
            self.rest = there or self.file.read(BLOCK)
            if there or not self.rest:
                break
        if zeros % 4 or self.rest and not XZ.startswith(self.rest[:len(XZ)]):
            raise lzma.LZMAError('bytes after the end of the data')
        self.unpacker = lzma.LZMADecompressor(lzma.FORMAT_XZ) if self.rest else None
        return bool(self.rest)

    def read1(self, count: int) -> bytes:
        """Returns some of the next bytes, at most `count`; none at the end."""
        out = b''
        while not out and self.unpacker:
            if self.unpacker.eof:
                self.rest = self.unpacker.unused_data
                if not self.next_stream():
                    break
            wants = self.unpacker.needs_input and not self.rest
            packed = self.file.read(BLOCK) if wants else self.rest
            if wants and not packed:
                raise EOFError('compressed file ended before the end-of-stream marker was reached')
            self.rest = b''
            out = self.unpacker.decompress(packed, count)
        return out


def pieces_of(file: Any, name: str) -> Pieces:
    """Returns the bytes of a file that unpacks. A fault of the packed bytes is `Damaged`."""
    def more() -> bytes:
        try:
            return cast(bytes, file.read1(BLOCK))
        except FAULTS as fault:
            raise Damaged('%s: damaged: %s' % (name, ' '.join(str(fault).split()).rstrip('.'))) from None
    return Pieces(more)


@contextlib.contextmanager
def on_disk(path: str, peeked: Peeked) -> Iterator[IO[bytes]]:
    """A file of the disk with the bytes of `path`, of which `peeked` has read the first ones: a copy unless `path` is
    one."""
    with contextlib.ExitStack() as stack:
        if os.path.isfile(path):
            yield stack.enter_context(open(path, 'rb'))
            return
        copy = stack.enter_context(tempfile.TemporaryFile(prefix='psxgpu'))
        pour(peeked, copy)
        copy.seek(0)
        yield copy


@contextlib.contextmanager
def unpacked(path: str, name: Optional[str] = None) -> Iterator[Peeked]:
    """The bytes of the file `path` to read, unpacked if they are packed; `-` is standard input. `name` is what messages
    call it. Raises `Damaged` while it is read, if the packed bytes are at fault."""
    name = name or title(path)
    with reading(path) as raw, contextlib.ExitStack() as stack:
        peeked = Peeked(raw)
        first = peeked.first
        if first.startswith(GZIP):
            yield Peeked(pieces_of(gzip.GzipFile(fileobj=cast(Any, peeked)), name))
        elif first.startswith(XZ):
            yield Peeked(pieces_of(XzFile(peeked), name))
        elif first.startswith(ZSTD):
            packed = stack.enter_context(on_disk(path, peeked))
            yield Peeked(pieces_of(stack.enter_context(zstd_reader(packed, name)), name))
        else:
            yield peeked


@contextlib.contextmanager
def packing(path: str, inputs: Iterable[str] = ()) -> Iterator[IO[bytes]]:
    """A file to write to, packed if its name ends in .gz, .xz or .zst. The same bytes give the same file. It must not
    be one of the paths `inputs`."""
    with writing(path, inputs) as raw, contextlib.ExitStack() as stack:
        if path.endswith('.gz'):
            yield cast(IO[bytes], stack.enter_context(gzip.GzipFile('', 'wb', GZIP_LEVEL, raw, 0)))
        elif path.endswith('.xz'):
            yield cast(IO[bytes], stack.enter_context(lzma.LZMAFile(raw, 'wb', preset=XZ_PRESET)))
        elif path.endswith('.zst'):
            yield stack.enter_context(zstd_writer(raw, path))
        else:
            yield raw
