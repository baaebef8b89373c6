"""Joins what a player wrote for the parts of a recording to what it writes for the whole.

At its end a player writes more than the events ask for: `play` the status word, `sums` and `frames` the shown picture
and `sums` the sum of video memory. So this is left out of each part except the last. A part ends after a frame, and the
picture at its end is that frame once more. If that frame shows no picture, there is none at the end either.

The name of a file begins with the number that `split` gave its part, so a part that is missing or out of order is an
error. If no name has a number, only the events of `list` and `sums` show the order.
"""
import os
import re
from typing import BinaryIO, List, Optional, Sequence, Tuple

from psxgpu.command import ToolError, reading
from psxgpu.corpus.scan import copy_bytes

TAIL = 1 << 12


def tail_lines(file: BinaryIO) -> List[Tuple[int, bytes]]:
    """Returns the last lines of a file, each with its byte offset."""
    size = file.seek(0, os.SEEK_END)
    at = file.seek(max(0, size - TAIL))
    lines = []
    for line in file.read().splitlines(True):
        lines.append((at, line))
        at += len(line)
    return lines


def end_of_words(file: BinaryIO) -> int:
    """Returns the byte offset of the status word."""
    at, line = tail_lines(file)[-1]
    if not line.startswith(b'status '):
        raise ValueError('it does not end with a status')
    return at


def end_of_sums(file: BinaryIO) -> int:
    """Returns the byte offset of the frame at the end: it is the frame before it once more, at the same event or the
    next."""
    *frames, (end, line) = tail_lines(file)[-3:]
    if not line.startswith(b'vram '):
        raise ValueError('it does not end with the sum of video memory')
    if len(frames) == 2:
        (event, *one), (last, *other) = (line.split() for _, line in frames)
        if one == other and int(last) - int(event) <= 1:
            return frames[1][0]
    return end


def end_of_frames(file: BinaryIO) -> int:
    """Returns the byte offset of the last picture."""
    at = last = 0
    size = file.seek(0, os.SEEK_END)
    while at < size:
        file.seek(at)
        kind, shape, _ = (file.readline() for _ in range(3))
        if kind != b'P6\n':
            raise ValueError('no picture at byte %d' % at)
        width, height = map(int, shape.split())
        last, at = at, file.tell() + 3 * width * height
    if at > size:
        raise ValueError('it ends inside a picture')
    return last


def end_of_list(file: BinaryIO) -> int:
    """Returns the length of the file."""
    return file.seek(0, os.SEEK_END)


def number_of(path: str) -> Optional[int]:
    """Returns the number with which the name of a file begins, or None."""
    found = re.match(r'(\d+)\.', os.path.basename(path))
    return int(found.group(1)) if found else None


def check_numbers(paths: Sequence[str]) -> None:
    """Raises ToolError unless the parts are there from the first to the last, in order. The last is the last one only
    if its folder has no file of the next part."""
    numbers = [number_of(path) for path in paths]
    if not any(numbers):
        return
    for wanted, (path, number) in enumerate(zip(paths, numbers), 1):
        if number is None:
            raise ToolError('%s: its name does not begin with the number of its part, as %03d.' % (path, wanted))
        if number != wanted:
            raise ToolError('%s: part %d, expected part %d: one is missing, or they are not in order'
                            % (path, number, wanted))
    folder = os.path.dirname(paths[-1]) or '.'
    for name in sorted(os.listdir(folder)):
        if number_of(name) == len(paths) + 1:
            raise ToolError('%s: part %d is missing' % (os.path.join(folder, name), len(paths) + 1))


def first_event(file: BinaryIO) -> Optional[int]:
    """Returns the event of the first line, or None if there is none."""
    file.seek(0)
    field = file.readline().split(b' ')[0]
    return int(field) if field.isdigit() else None


def last_event(file: BinaryIO, end: int) -> Optional[int]:
    """Returns the event of the last line before a byte offset, or None if there is none."""
    fields = [line.split(b' ')[0] for at, line in tail_lines(file) if at < end]
    events = [int(field) for field in fields if field.isdigit()]
    return events[-1] if events else None


ENDS = {'play': end_of_words, 'sums': end_of_sums, 'frames': end_of_frames, 'list': end_of_list}


def glue(word: str, paths: Sequence[str], out: BinaryIO) -> None:
    """Writes the whole of what a player wrote for each part. `word`: its command."""
    if word not in ENDS:
        raise ToolError('glue %s: one of %s' % (word, ' '.join(ENDS)))
    check_numbers(paths)
    done = 0
    for k, path in enumerate(paths, 1):
        with reading(path) as file:
            try:
                end = ENDS[word](file) if k < len(paths) else file.seek(0, os.SEEK_END)
            except (ValueError, IndexError) as error:
                raise ToolError('%s: not what `%s` writes: %s' % (path, word, error)) from error
            if word in ('list', 'sums'):
                event = first_event(file)
                if event is not None and event <= done:
                    raise ToolError('%s: event %d, after event %d of the parts before it: not in order'
                                    % (path, event, done))
                done = last_event(file, end) or done
            file.seek(0)
            copy_bytes(file, out, end)
