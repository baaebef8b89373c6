"""The calls of libpsxgpu by ctypes, and their errors: what `psxgpu.machine` is made of.

The library is the file that the environment's PSXGPU_LIB names, else the one in the package, in the checkout's out/, in
the lib/ that the package is installed in, or in the system. It is loaded with the first call.
"""
import ctypes
import functools
import os
import sys
from typing import Any, List, Optional

NAME = {'win32': 'psxgpu.dll', 'darwin': 'libpsxgpu.1.dylib'}.get(sys.platform, 'libpsxgpu.so.1')
NO_PICTURE, NO_MEMORY, NO_CELL = 10, 13, 17
LINE_ROOM = 96          # PSXGPU_LINE_ROOM of c/psxgpu.h


class Error(Exception):
    """An error of the library. Its text is the program's line."""


class Missing(Error):
    """There is no library, or it has no such call."""


class OutOfMemory(Error, MemoryError):
    """The library got no memory. The machine is as before."""


class Refused(Error):
    """The library refused a call and left the machine unchanged. `written`: the bytes of output before the refusal, of
    `play`, `play_size` and `play_to`. `output`: these bytes, of `play` alone."""

    def __init__(self, code: int, event: int = 0, place: int = 0, word: int = 0, output: bytes = b'',
                 written: int = 0) -> None:
        super().__init__('psxgpu: ' + line_of(Ended(0, event, place, word, code)))
        self.code, self.event, self.place, self.word, self.output = code, event, place, word, output
        self.written = written


for error in (Error, Missing, OutOfMemory, Refused):
    error.__module__ = 'psxgpu'    # whose names they are for a reader


class Handle(ctypes.Structure):
    """psxgpu of c/psxgpu.h."""
    _fields_ = [('at', ctypes.c_void_p), ('open', ctypes.c_uint32)]


class Ended(ctypes.Structure):
    """psxgpu_ended of c/psxgpu.h."""
    _fields_ = [('written', ctypes.c_size_t), ('event', ctypes.c_uint64), ('place', ctypes.c_uint64),
                ('word', ctypes.c_uint32), ('code', ctypes.c_uint32)]


class Output(ctypes.Structure):
    """psxgpu_output of c/psxgpu.h."""
    _fields_ = [('at', ctypes.c_void_p), ('open', ctypes.c_uint32)]


class RawNote(ctypes.Structure):
    """psxgpu_note of c/psxgpu.h."""
    _fields_ = [('event', ctypes.c_uint64), ('word', ctypes.c_size_t), ('head', ctypes.c_uint32),
                ('class_number', ctypes.c_uint16), ('has_area', ctypes.c_uint16)]
    _fields_ += [(name, ctypes.c_int32) for name in ('x1', 'y1', 'x2', 'y2')]


HANDLE, WORD, SIZE = ctypes.POINTER(Handle), ctypes.c_uint32, ctypes.c_size_t
BYTES, OUT_WORDS, OUT_HALF = ctypes.c_void_p, ctypes.POINTER(WORD), ctypes.POINTER(ctypes.c_uint16)
OUT_SIZE, ENDED, OUTPUT = ctypes.POINTER(SIZE), ctypes.POINTER(Ended), ctypes.POINTER(Output)
# The calls of c/psxgpu.h, except psxgpu_play_to: an exception of Python cannot pass through C.
CALLS = {
    'new': [HANDLE], 'free': [HANDLE], 'clear': [HANDLE], 'set_tall': [HANDLE],
    'gp0': [HANDLE, WORD], 'gp0_words': [HANDLE, BYTES, SIZE], 'gp1': [HANDLE, WORD],
    'read': [HANDLE, OUT_WORDS], 'status': [HANDLE, OUT_WORDS], 'skip': [HANDLE],
    'ram': [HANDLE, WORD, BYTES, SIZE], 'dma': [HANDLE, WORD, WORD, WORD, WORD, ENDED],
    'begin': [HANDLE, WORD, WORD, WORD, ENDED], 'turn': [HANDLE],
    'vram': [HANDLE, BYTES, SIZE, OUT_SIZE], 'cell': [HANDLE, WORD, WORD, OUT_HALF],
    'shape': [HANDLE, OUT_HALF, OUT_HALF], 'picture': [HANDLE, BYTES, SIZE, OUT_SIZE],
    'picture_rgba': [HANDLE, BYTES, SIZE, OUT_SIZE],
    'registers': [HANDLE, BYTES, SIZE],
    'save': [HANDLE, BYTES, SIZE, OUT_SIZE], 'load': [HANDLE, BYTES, SIZE, ENDED],
    'gp0_notes': [HANDLE, BYTES, SIZE, ctypes.POINTER(RawNote), SIZE, OUT_SIZE],
    'play': [WORD, WORD, BYTES, SIZE, BYTES, SIZE, ENDED], 'play_size': [WORD, WORD, BYTES, SIZE, ENDED],
    'play_output': [WORD, WORD, BYTES, SIZE, OUTPUT, ENDED],
    'output_copy': [OUTPUT, SIZE, BYTES, SIZE], 'output_free': [OUTPUT],
    'version': [], 'text': [WORD], 'line': [ENDED, BYTES, SIZE],
}
# What a call returns. Others return a code.
RESULTS = {'free': None, 'output_free': None, 'output_copy': SIZE, 'line': SIZE, 'version': ctypes.c_char_p,
           'text': ctypes.c_char_p}


class Library:
    """The loaded library: each call of c/psxgpu.h by its name, without `psxgpu_`. `version()` is its version."""

    def __init__(self, path: str) -> None:
        loaded = ctypes.CDLL(path)
        self.path = path
        for name, kinds in CALLS.items():
            call = getattr(loaded, 'psxgpu_' + name, None)
            if call is not None:
                call.argtypes, call.restype = kinds, RESULTS.get(name, WORD)
                if call.restype is ctypes.c_char_p:
                    call.errcheck = lambda text, *_: text.decode()
                setattr(self, name, call)

    def __repr__(self) -> str:
        return '<libpsxgpu%s: %s>' % (' ' + self.version() if self.has('version') else '', self.path)

    def has(self, name: str) -> bool:
        """Returns whether the library has a call."""
        return name in vars(self)

    def __getattr__(self, name: str) -> Any:
        raise Missing('%s has no psxgpu_%s' % (self.path, name))


def places() -> List[str]:
    """Returns where the library may be. The first that can be loaded is used."""
    if os.environ.get('PSXGPU_LIB'):
        return [os.environ['PSXGPU_LIB']]
    package = os.path.dirname(os.path.dirname(os.path.abspath(__file__)))
    folders = (package, os.path.join(package, '..', 'out'), os.path.join(package, '..', '..', '..'))
    return [*(os.path.normpath(os.path.join(folder, NAME)) for folder in folders), NAME]


@functools.lru_cache(maxsize=None)
def library() -> Library:
    """Returns the library, loaded once. Raises Missing if there is none."""
    causes = []
    for path in places():
        try:
            return Library(path)
        except OSError as bad:
            causes.append(str(bad))
    raise Missing('no libpsxgpu: install the package libpsxgpu1 or a wheel of psxgpu, or build it with `make lib` (%s)'
                  % '; '.join(causes))


def line_of(ended: Ended) -> str:
    """Returns what the program says of an ending, in the library's words."""
    if not library().has('line'):       # one of before 1.0
        return 'code %d' % ended.code
    room = ctypes.create_string_buffer(LINE_ROOM)
    library().line(ended, room, len(room))
    return room.value.decode()


def check(code: int, ended: Optional[Ended] = None, output: bytes = b'') -> None:
    """Raises the error of a call's code, if it is not 0."""
    if code == NO_MEMORY:
        raise OutOfMemory('psxgpu: memory')
    if code:
        end = ended or Ended()
        raise Refused(code, end.event, end.place, end.word, output, end.written)
