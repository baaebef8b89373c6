"""The viewer with a recording that grows: a server on this machine gives its page the new bytes.

It answers 127.0.0.1 alone, and only addresses with a token that the page knows. It ends when the page is gone.
"""
from __future__ import annotations

import contextlib
import os
import re
import secrets
import select
import socketserver
import stat
import threading
import time
from http import HTTPStatus
from http.server import BaseHTTPRequestHandler, ThreadingHTTPServer
from typing import Iterator, NamedTuple, Optional

from psxgpu.command import ToolError, reading
from psxgpu.packing import PACKED
from psxgpu.viewing.asked import name_of
from psxgpu.viewing.place import Place
from psxgpu.viewing.template import Case, page

HOST = '127.0.0.1'
WAIT = 5.0                  # seconds until a question is answered that nothing is new
LOOK = 0.01                 # seconds between two looks at the file
GONE = 15.0                 # seconds without a question after which the page is gone
IDLE = 60                   # seconds after which a connection without a question is closed
MOST = 1 << 22              # bytes of one answer
QUERY = re.compile(r'from=([0-9]{1,15})&seen=([0-9a-f.]{0,60})')
POLICY = "default-src 'none';"
MISSING = '0'               # the stamp of a file that is not there
HEADERS = {'Cache-Control': 'no-store', 'X-Content-Type-Options': 'nosniff', 'Referrer-Policy': 'no-referrer',
           'Cross-Origin-Resource-Policy': 'same-origin', 'Content-Security-Policy': "frame-ancestors 'none'"}


class Part(NamedTuple):
    """Bytes of a file. `stamp`: differs when the file has changed; empty if the file has more bytes."""
    stamp: str
    data: bytes


def part_of(path: str, begin: int, seen: str) -> Optional[Part]:
    """Returns the bytes of a file from an offset on, or None if its stamp is `seen`. A missing file is empty."""
    try:
        with open(path, 'rb') as file:
            found = os.fstat(file.fileno())
            stamp = '%x.%x.%x' % (found.st_ino, found.st_size, found.st_mtime_ns)
            if stamp == seen:
                return None
            file.seek(begin)
            data = file.read(MOST)
            return Part(stamp if begin + len(data) >= found.st_size else '', data)
    except FileNotFoundError:
        return None if seen == MISSING else Part(MISSING, b'')


class Handler(BaseHTTPRequestHandler):
    """Answers one connection."""
    server: Server
    protocol_version = 'HTTP/1.1'
    timeout = IDLE

    def log_message(self, format: str, *args: object) -> None:
        """Writes no log."""

    def version_string(self) -> str:
        """Returns the name of the server: nothing about this machine."""
        return 'psxgpu'

    def is_own(self) -> bool:
        """Returns whether the page of this server asks, or the user opens it."""
        hosts, origin = self.headers.get_all('Host'), self.headers.get('Origin')
        is_here = hosts == [self.server.host] and origin in (None, 'http://' + self.server.host)
        return is_here and self.headers.get('Sec-Fetch-Site') in (None, 'none', 'same-origin')

    def do_GET(self) -> None:
        """Answers with the page or with bytes of the file."""
        path, _, query = self.path.partition('?')
        if not self.is_own():
            self.refuse(HTTPStatus.FORBIDDEN)
        elif secrets.compare_digest(path.encode(), self.server.path.encode()) and not query:
            self.answer(HTTPStatus.OK, self.server.page, 'text/html; charset=utf-8')
        elif secrets.compare_digest(path.encode(), self.server.path.encode() + b'bytes'):
            found = QUERY.fullmatch(query)
            if found:
                self.give(int(found[1]), found[2])
            else:
                self.refuse(HTTPStatus.BAD_REQUEST)
        else:
            self.refuse(HTTPStatus.NOT_FOUND)

    def refuse(self, status: HTTPStatus) -> None:
        """Answers with a status alone, and ends the connection."""
        self.close_connection = True
        self.answer(status, b'%s\n' % status.phrase.encode(), 'text/plain; charset=utf-8')

    def answer(self, status: HTTPStatus, data: bytes, kind: str, stamp: str = '') -> None:
        """Writes an answer."""
        self.send_response(status)
        for name, value in HEADERS.items():
            self.send_header(name, value)
        self.send_header('Content-Type', kind)
        if status != HTTPStatus.NO_CONTENT:
            self.send_header('Content-Length', str(len(data)))
        if stamp:
            self.send_header('ETag', stamp)
        self.end_headers()
        with contextlib.suppress(BrokenPipeError, ConnectionResetError):
            self.wfile.write(data)

    def give(self, begin: int, seen: str) -> None:
        """Answers with the bytes from an offset on when the stamp of the file is another one than `seen`."""
        last = time.monotonic() + WAIT
        with self.server.asked():
            found = part_of(self.server.followed, begin, seen)
            while found is None and time.monotonic() < last:
                if select.select([self.connection], [], [], LOOK)[0]:     # the page has gone
                    self.close_connection = True
                    return
                found = part_of(self.server.followed, begin, seen)
            if found is None:
                self.answer(HTTPStatus.NO_CONTENT, b'', 'application/octet-stream')
            else:
                self.answer(HTTPStatus.OK, found.data, 'application/octet-stream', found.stamp)


class Server(ThreadingHTTPServer):
    """Serves a page and the bytes of the file that it follows."""
    daemon_threads = True

    def __init__(self, path: str, page_of: bytes) -> None:
        super().__init__((HOST, 0), Handler)
        self.followed, self.page = path, page_of
        self.host, self.path = '%s:%d' % (HOST, self.server_address[1]), '/%s/' % secrets.token_urlsafe(24)
        self.lock, self.running, self.asked_at = threading.Lock(), 0, 0.0

    def server_bind(self) -> None:
        """Takes a free port. HTTPServer would also ask the network for the name of this machine, which may take long."""
        socketserver.TCPServer.server_bind(self)

    @property
    def address(self) -> str:
        """The address of the page."""
        return 'http://%s%s' % (self.host, self.path)

    def handle_error(self, request: object, client_address: object) -> None:
        """Writes nothing: a browser may end a connection at any time."""

    @contextlib.contextmanager
    def asked(self) -> Iterator[None]:
        """The page asks in this block."""
        with self.lock:
            self.running += 1
        try:
            yield
        finally:
            with self.lock:
                self.running -= 1
                self.asked_at = time.monotonic()

    def is_left(self) -> bool:
        """Returns whether the page was there, and is gone."""
        with self.lock:
            return self.running == 0 and self.asked_at > 0 and time.monotonic() - self.asked_at > GONE

    @contextlib.contextmanager
    def running_in_thread(self) -> Iterator[None]:
        """Answers in the block."""
        thread = threading.Thread(target=self.serve_forever, kwargs={'poll_interval': 0.05}, daemon=True)
        thread.start()
        try:
            yield
        finally:
            self.shutdown()
            self.server_close()

    def wait(self) -> None:
        """Waits until the page is gone."""
        while not self.is_left():
            time.sleep(0.1)


def refuse_file(path: str) -> None:
    """Raises ToolError or OSError if a file cannot be followed."""
    if path == '-':
        raise ToolError('standard input cannot be followed: name a file')
    with reading(path) as file:
        if not stat.S_ISREG(os.fstat(file.fileno()).st_mode):
            raise ToolError('%s: not a regular file: only such a file can be followed' % path)
        if file.read(6).startswith(PACKED):
            raise ToolError('%s: packed: unpack it to follow it' % path)


def server_of(path: str, viewer: str, place: Place, note: str) -> Server:
    """Returns a server that follows a file. Its page may ask it for bytes."""
    refuse_file(path)
    text = page(viewer, [Case(name_of(path), [], place, note)], 'psxgpu view').decode()
    if text.count(POLICY) != 1:
        raise ToolError('the viewer is one of another version: `make web` builds it')
    return Server(path, text.replace(POLICY, POLICY + " connect-src 'self';").encode())
