"""The file of sums that `corpus record` writes, and that belongs into version control.

    psxgpu-corpus 1
    player psxgpu_tool 0.2.0
    gives frames vram words

    capture 216 5b0e..(64 digits) flips.capture
    frame 12 320 240 8e80..(64 digits) 77d1..(16 digits)
    vram ca14..(64 digits)
    words 3 09ab..(64 digits)
    end played

Lines of text, each a keyword and its values. `gives` is what was asked for, with `marks` instead of `frames` if frames
end at a recorder's marks. After the head there is a block for each capture, in the order of the names. Each block ends
with an empty line. `capture` has the file's bytes, its SHA-256 and its name below the
folder; `frame` the event, width, height and SHA-256 of a picture, and the first 16 digits of the SHA-256 of the lines
read up to it (`-` where none was read or asked for); `vram` the SHA-256 of video memory after the end; `words` how
many lines were read, and their SHA-256. `end` is `played`, `refused STATUS LINE`, `fails STATUS LINE`, `hangs
SECONDS` or `crashes SIGNAL`. What the player does not give has no line.
"""
import hashlib
from dataclasses import dataclass, field
from typing import Dict, List, Optional, Tuple

from psxgpu.command import ToolError, named, write_whole

VERSION = 1
HEAD = 'psxgpu-corpus'
NOTHING = hashlib.sha256().hexdigest()      # the sum of an empty file


@dataclass
class Frame:
    """A picture: the event after which it is shown, its size, its sum, and the sum of the lines read up to it."""
    event: int
    width: int
    height: int
    picture: str
    words: str = '-'

    def line(self) -> str:
        """Returns the line of the file."""
        return 'frame %d %d %d %s %s' % (self.event, self.width, self.height, self.picture, self.words)


@dataclass
class Row:
    """What a player wrote for one capture."""
    name: str
    size: int
    sum: str
    frames: List[Frame] = field(default_factory=list)
    vram: Optional[str] = None
    words: Optional[Tuple[int, str]] = None
    end: str = 'played'
    seconds: float = 0.0

    def block(self) -> str:
        """Returns the lines of the file."""
        lines = ['capture %d %s %s' % (self.size, self.sum, self.name)]
        lines += [frame.line() for frame in self.frames]
        if self.vram:
            lines.append('vram ' + self.vram)
        if self.words:
            lines.append('words %d %s' % self.words)
        return '\n'.join(lines + ['end ' + self.end, '', ''])

    def is_empty(self) -> bool:
        """Returns whether the player wrote nothing for the capture."""
        return not (self.frames or self.vram not in (None, NOTHING) or self.words and self.words[0])

    def take(self, kind: str, value: str) -> None:
        """Adds a line after the first one. Raises ValueError if it is none."""
        if kind == 'frame':
            event, width, height, picture, words = value.split(' ')
            self.frames.append(Frame(int(event), int(width), int(height), picture, words))
        elif kind == 'vram' and value:
            self.vram = value
        elif kind == 'words':
            count, total = value.split(' ')
            self.words = int(count), total
        elif kind == 'end' and value:
            self.end = value
        else:
            raise ValueError(kind)


@dataclass
class Sums:
    """A file of sums: who played, what was asked of it, and the rows by name."""
    player: str
    gives: Tuple[str, ...]
    rows: Dict[str, Row] = field(default_factory=dict)

    def head(self) -> str:
        """Returns the first lines of the file."""
        return '%s %d\nplayer %s\ngives %s\n\n' % (HEAD, VERSION, self.player, ' '.join(self.gives))

    def text(self) -> str:
        """Returns the file."""
        return self.head() + ''.join(self.rows[name].block() for name in sorted(self.rows))


def as_bytes(text: str) -> bytes:
    """Returns the bytes of a text. Names of files need not be UTF-8: such bytes come through unchanged."""
    return text.encode('utf-8', 'surrogateescape')


def write_text(path: str, text: str) -> None:
    """Writes a text so that the file that was there stays until the new one is whole."""
    write_whole(path, as_bytes(text), is_text=True)


def first_row(line: str, value: str) -> Row:
    """Returns the row that a line begins. Raises ValueError if it begins none."""
    if line != 'capture':
        raise ValueError(line)
    size, total, name = value.split(' ', 2)
    return Row(name, int(size), total, end='')


def read_head(lines: List[str], path: str) -> Sums:
    """Returns the sums of a file without its rows. Raises ToolError if its head is not that of this version."""
    wanted = (HEAD, 'player', 'gives')
    found = [line.rstrip('\n').partition(' ') for line in lines[:3]]
    if not found or found[0][0] != HEAD:
        raise ToolError('%s: not a file of sums: its first line is not `%s %d`' % (path, HEAD, VERSION))
    if found[0][2] != str(VERSION):
        raise ToolError('%s:1: version %s; this tool knows version %d' % (path, found[0][2], VERSION))
    if tuple(kind for kind, _, _ in found) != wanted or lines[3:4] != ['\n']:
        raise ToolError('%s: the head is not whole' % path)
    return Sums(found[1][2], tuple(found[2][2].split()))


def read_lines(path: str, is_whole: bool) -> List[str]:
    """Returns the lines of a file. If it may be cut, a last line without its end is left out."""
    try:
        with open(path, encoding='utf-8', errors='surrogateescape', newline='\n') as file:
            lines = file.readlines()
    except OSError as error:
        raise named(error, path) from None
    if not is_whole and lines and not lines[-1].endswith('\n'):
        lines.pop()
    return lines


def read_sums(path: str, is_whole: bool = True) -> Sums:
    """Reads a file of sums. One that is being written may end inside a block, which is then left out."""
    lines = read_lines(path, is_whole)
    sums, ended, at = read_head(lines, path), 4, 4
    row: Optional[Row] = None
    for at, line in enumerate(lines[4:], 5):
        kind, _, value = line.rstrip('\n').partition(' ')
        try:
            if row is None:
                row = first_row(kind, value)
            elif line != '\n' or not row.end:
                row.take(kind, value)
            elif row.name not in sums.rows:
                sums.rows[row.name], row, ended = row, None, at
            else:
                break
        except ValueError as error:
            raise ToolError('%s:%d: not a line of a file of sums: %s' % (path, at, line.rstrip('\n')[:60])) from error
    if row and row.name in sums.rows:
        raise ToolError('%s:%d: a second capture of the name %s' % (path, at, row.name))
    if is_whole and ended != len(lines):
        raise ToolError('%s:%d: the file ends inside a capture' % (path, len(lines)))
    return sums
