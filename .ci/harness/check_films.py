#!/usr/bin/env python3
"""Checks what a player writes of films and of the history of cells.

    python3 .ci/harness/check_films.py PLAYER CAPTURE ..

Each capture is cut after its events, and played from its beginning up to there by `shot` and `vram`. `frames` and
`sums` have to write what `shot` and SHA-256 give of the events up to each picture, at flips and at marks, and `pixel`
each value that `vram` shows to be new in a cell. Marks are added after every seventh event, since they change nothing.
The last line is `N passed, M failed`.
"""
import hashlib
import os
import re
import struct
import subprocess
import sys
import tempfile

from psxgpu.capture import GP1, HEADS, events, records

FLIP, MARK = 0x05, 0x3F
# Captures with more events have no cells watched: each event is a run of the player.
MOST_WATCHED = 800


class Film:
    """The events of a capture, one to a record, with marks among them."""

    def __init__(self, data):
        version, found = records(data)
        self.head = HEADS[version]
        self.events = []
        for kind, count, words in events(found):
            self.events.append((kind, struct.pack('<%dI' % (1 + len(words)), kind << 24 | count, *words)))
            if len(self.events) % 7 == 0:
                self.events.append((GP1, struct.pack('<2I', GP1 << 24 | 1, MARK << 24)))

    def first(self, n):
        """The capture of the first n events."""
        return self.head + b''.join(record for _, record in self.events[:n]) + bytes(4)

    def numbers(self, opcode):
        """The numbers of the events that write this word of GP1, by its six bits."""
        return [n for n, (kind, record) in enumerate(self.events, 1) if kind == GP1 and record[7] & 0x3F == opcode]


class Player:
    def __init__(self, program):
        self.program = program

    def run(self, words, capture):
        """The status, what was written, and what err says."""
        with tempfile.TemporaryFile() as file:
            file.write(capture)
            file.seek(0)
            done = subprocess.run([self.program] + words, stdin=file, stdout=subprocess.PIPE, stderr=subprocess.PIPE)
        return done.returncode, done.stdout, done.stderr.decode()

    def shot(self, capture):
        """The picture after a capture; nothing where none is shown."""
        status, picture, err = self.run(['shot'], capture)
        if status and 'no-picture' not in err:
            raise AssertionError('shot: ' + err)
        return picture


def digest(data):
    return hashlib.sha256(data).hexdigest()


def sum_line(number, picture):
    """The line of a picture's sum; nothing where none is shown."""
    if not picture:
        return ''
    width, height = picture.split(b'\n', 2)[1].split()
    return '%d %s %s %s\n' % (number, width.decode(), height.decode(), digest(picture))


def check_moments(player, film, words, opcode, is_at_end):
    """`frames` and `sums` at one kind of moment."""
    whole = film.first(len(film.events))
    status, memory, err = player.run(['vram'], whole)
    played = len(film.events) if status == 0 else int(re.search(r'at event (\d+)', err)[1]) - 1
    shots = [(n, player.shot(film.first(n))) for n in film.numbers(opcode) if n <= played]
    if status == 0 and is_at_end:
        shots.append((played + 1, player.shot(whole)))
    pictures = b''.join(picture for _, picture in shots)
    sums = ''.join(sum_line(n, picture) for n, picture in shots)
    if status == 0:
        sums += 'vram %s\n' % digest(memory)
    if player.run(['frames'] + words, whole)[:2] != (status, pictures):
        raise AssertionError('frames %s' % ' '.join(words))
    if player.run(['sums'] + words, whole)[:2] != (status, sums.encode()):
        raise AssertionError('sums %s' % ' '.join(words))


def lines_of(player, film, x, y):
    """The lines of `pixel`: (event, name, word, before, after)."""
    status, out, err = player.run(['pixel', str(x), str(y)], film.first(len(film.events)))
    lines = [line.split() for line in out.decode().splitlines()]
    return [(int(line[0]), line[1], line[2], int(line[3], 16), int(line[4], 16)) for line in lines]


def check_cells(player, film, cells):
    """`pixel` of these cells, against `vram` after each event."""
    rows = 1024 if film.head == HEADS[3] else 512
    changes, values = {cell: [] for cell in cells}, dict.fromkeys(cells, 0)
    for n in range(1, len(film.events) + 1):
        status, memory, err = player.run(['vram'], film.first(n))
        if status:
            break
        for x, y in cells:
            value = struct.unpack_from('<H', memory, 2 * (1024 * y + x))[0] if y < rows else 0
            if value != values[x, y]:
                changes[x, y].append((n, values[x, y], value))
            values[x, y] = value
    status, listed, err = player.run(['list'], film.first(len(film.events)))
    items = {tuple(line.split()[:3]) for line in listed.decode().splitlines()}
    for x, y in cells:
        lines = lines_of(player, film, x, y)
        if any(a[4] != b[3] for a, b in zip(lines, lines[1:])) or any(line[3] == line[4] for line in lines):
            raise AssertionError('pixel %d %d: a line that changes nothing, or a gap' % (x, y))
        if any(line[1] != 'pixels' and (str(line[0]), line[1], line[2]) not in items for line in lines):
            raise AssertionError('pixel %d %d: a packet that list does not have' % (x, y))
        # An event of DMA may change a cell more than once.
        ends = {}
        for number, _, _, before, after in lines:
            ends[number] = (ends.get(number, (before,))[0], after)
        if [(n, a, b) for n, (a, b) in ends.items() if a != b] != changes[x, y]:
            raise AssertionError('pixel %d %d: other changes than vram shows' % (x, y))


def watched(player, film):
    """Cells that the capture changes, and some that it may not have."""
    memory = player.run(['vram'], film.first(len(film.events)))[1]
    drawn = [at // 2 for at in range(0, len(memory), 2) if memory[at:at + 2] != b'\0\0']
    chosen = {drawn[len(drawn) * k // 5] for k in range(5)} if drawn else set()
    return sorted((at % 1024, at // 1024) for at in chosen) + [(1023, 511), (0, 1023)]


def check(player, path):
    with open(path, 'rb') as file:
        film = Film(file.read())
    check_moments(player, film, [], FLIP, True)
    check_moments(player, film, ['marks'], MARK, False)
    if len(film.events) <= MOST_WATCHED:
        check_cells(player, film, watched(player, film))


def main():
    if len(sys.argv) < 3:
        sys.exit('usage: check_films.py PLAYER CAPTURE ..')
    player = Player(os.path.abspath(sys.argv[1]))
    passed = failed = 0
    for path in sys.argv[2:]:
        try:
            check(player, path)
            passed += 1
        except (AssertionError, OSError, ValueError, struct.error) as why:
            print('FAILED: %s: %s' % (path, why))
            failed += 1
    print('%d passed, %d failed' % (passed, failed))
    sys.exit(1 if failed else 0)


if __name__ == '__main__':
    main()
