"""Text logs of port writes, port reads and DMA, as an emulator can print them, read as captures."""
from array import array
from typing import IO, Iterable, Iterator, List

from psxgpu.capture import Capture
from psxgpu.command import ToolError, read_whole
from psxgpu.stream import GP0

MOST_GATHERED, TALL_DUMP, MOST_LINE = 65536, 2097152, 1 << 24
USES = {'gp0': 'gp0 WORD ..', 'gp1': 'gp1 WORD', 'read': 'read [N]', 'turn': 'turn [N]', 'skip': 'skip [N]',
        'stat': 'stat', 'ram': 'ram ADDRESS WORD ..', 'dma': 'dma 2|6 MADR BCR CHCR', 'begin': 'begin MADR BCR CHCR',
        'version': 'version 1|2|3', 'vram': 'vram FILE', 'settings': 'settings E1 E2 E3 E4 E5 E6',
        'display': 'display WORD ..'}


class Bad(ToolError):
    """A line that is not an event."""


def number(text: str, base: int = 16) -> int:
    """Returns the number that a word of a line is. Raises Bad if it is none of 32 bits."""
    try:
        value = int(text, base)
    except ValueError as error:
        raise Bad('%s is not a %s number' % (text, 'decimal' if base == 10 else 'hexadecimal')) from error
    if not 0 <= value <= 0xFFFFFFFF:
        raise Bad('%s is not a number of 32 bits' % text)
    return value


class Log(Capture):
    """A capture whose records go to a file, and whose neighbouring GP0 words are one record. `version` is raised by the
    lines that need it."""

    def __init__(self, file: IO[bytes]) -> None:
        super().__init__(3)
        self.file, self.words = file, array('I')
        self.inputs: List[str] = []     # files that lines name
        self.needs = 1

    def keep(self, record: bytes) -> None:
        """Writes a record."""
        self.file.write(record)

    def need(self, version: int) -> None:
        """Raises the version to `version`."""
        self.needs = max(self.needs, version)

    def record(self: 'Log', kind: int, count: int, words: Iterable[int] = ()) -> 'Log':
        """Adds a record after the words that are gathered."""
        if kind != GP0:
            self.close()
        return super().record(kind, count, words)

    def gather(self, words: Iterable[int]) -> None:
        """Adds words for GP0."""
        self.words.extend(words)
        if len(self.words) >= MOST_GATHERED:
            self.close()

    def close(self) -> None:
        """Writes the words that are gathered as one record."""
        words, self.words = self.words, array('I')
        if words:
            super().record(GP0, len(words), words)


def load_state(log: Log, name: str, args: List[str]) -> None:
    """Adds a line of the state with which a log begins in the middle."""
    if name == 'display':
        log.gp1([number(arg) for arg in args])
    elif name == 'settings':
        log.gather([0xE1000000 + 0x01000000 * k | number(arg) & 0xFFFFFF for k, arg in enumerate(args)])
    else:
        log.inputs.append(args[0])
        dump = read_whole(args[0])
        log.need(3 if len(dump) == TALL_DUMP else 1)
        log.version = max(log.needs, 2)
        log.start_from(dump)
        log.version = 3


def play_line(log: Log, name: str, args: List[str]) -> bool:
    """Adds the event of a line. Returns false if it does not have the words that its name needs."""
    if name == 'gp0' and args:
        log.gather([number(arg) for arg in args])
    elif name == 'gp1' and len(args) == 1:
        log.gp1(number(args[0]))
    elif name in ('read', 'turn', 'skip') and len(args) <= 1:
        getattr(log, name)(number(args[0], base=10) if args else 1)
        log.need(1 if name == 'read' else 2)
    elif name == 'stat' and not args:
        log.stat()
    elif name == 'ram' and len(args) > 1:
        log.ram(*map(number, args))
    elif name == 'dma' and len(args) == 4:
        log.dma(*map(number, args))
    elif name == 'begin' and len(args) == 3:
        log.begin(*map(number, args))
        log.need(2)
    elif name == 'version' and args in (['1'], ['2'], ['3']):
        log.need(int(args[0]))
    elif (name, len(args)) in (('vram', 1), ('settings', 6)) or name == 'display' and args:
        load_state(log, name, args)
    else:
        return False
    return True


def why_not(name: str) -> str:
    """Returns why a line is not an event."""
    return 'expected `%s`' % USES[name] if name in USES else '`%s` names no event' % name


def read_log(lines: Iterable[str], log: Log) -> None:
    """Adds the lines of a log. Raises Bad with number and text of the first line that is not an event."""
    for at, text in enumerate(lines, 1):
        words = text.split('#')[0].split()
        if not words:
            continue
        try:
            if not play_line(log, words[0].lower(), words[1:]):
                raise Bad(why_not(words[0].lower()))
        except ValueError as bad:
            raise Bad('line %d: %s: %s' % (at, bad, text.strip())) from bad
    log.close()


def from_log(lines: Iterable[str], records: IO[bytes]) -> Log:
    """Writes the records of a log to a file. Returns the log."""
    log = Log(records)
    read_log(lines, log)
    return log


def lines_of(file: IO[bytes], name: str) -> Iterator[str]:
    """Returns the lines of a log. Raises ToolError at one that is not ASCII."""
    for at, line in enumerate(iter(lambda: file.readline(MOST_LINE), b''), 1):
        if len(line) == MOST_LINE:
            raise ToolError('%s: line %d has more than %d characters' % (name, at, MOST_LINE))
        try:
            yield line.decode('ascii')
        except UnicodeDecodeError as error:
            raise ToolError('%s: line %d is not text: %r' % (name, at, line[:40])) from error
