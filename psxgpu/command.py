"""What all tools share: how they are called, how they end, and how they read files. `psxgpu.output` writes them.

A tool is a module of `psxgpu.commands` with a text (`__doc__`), `arguments(parser)`, which adds its arguments, and
`run(words)`, which does the work and returns a status. `complete(words)`, if it has that, is called before the roles of
the arguments are checked. Statuses are those of `cmp`: 0 the same, or done; 1 different;
2 an error. An error is one line on standard error: the tool, the file if there is one, and the reason.
"""
import argparse
import codecs
import contextlib
import io
import os
import re
import sys
from types import ModuleType
from typing import (IO, Any, BinaryIO, Callable, ContextManager, Iterator, NoReturn, Optional, Protocol, Sequence,
                    Tuple, Union, cast)

from psxgpu import progress
from psxgpu.output import check, roles_in, silence, takes_standard_output, write_whole, writing
from psxgpu.stopping import FIRST_STATUS, Stopped, stoppable
from psxgpu.errors import ToolError, named, reason_of, title

__all__ = ['BLOCK', 'DIFFERENT', 'SAME', 'TROUBLE', 'Command', 'Readable', 'ToolError', 'decimal', 'guarded', 'main',
           'named', 'pour', 'read_whole', 'reading', 'reason_of', 'title', 'write_whole', 'writing']

SAME, DIFFERENT, TROUBLE = 0, 1, 2
BLOCK = 1 << 20
LITERAL = '\0'      # begins an argument after `--` while the arguments are parsed: no argument has this character


class Readable(Protocol):
    """What bytes are read from."""

    def read(self, size: int = -1, /) -> bytes:
        """Returns at most `size` bytes; none at the end."""


class Command(Protocol):
    """A module of `psxgpu.commands`."""
    __doc__: Optional[str]

    @staticmethod
    def arguments(parser: argparse.ArgumentParser) -> None:
        """Adds the arguments to a parser."""

    @staticmethod
    def run(words: argparse.Namespace) -> Optional[int]:
        """Does the work. Returns the status; None is 0."""


class Help(argparse.Action):
    """Writes the help. Unlike argparse's own, it fails if the help cannot be written."""

    def __call__(self, parser: argparse.ArgumentParser, *_: object) -> None:
        if sys.stdout is not None:
            sys.stdout.write(parser.format_help())
        parser.exit()


class Parser(argparse.ArgumentParser):
    """A parser whose refusal is one line: what is wrong, and where the arguments are explained."""

    def error(self, message: str) -> NoReturn:
        """Raises ToolError."""
        raise ToolError('%s: `%s --help` explains the arguments' % (message.replace(LITERAL, ''), self.prog))

    def _get_value(self, action: argparse.Action, text: str) -> Any:
        """Returns the value of an argument."""
        return super()._get_value(action, text[len(LITERAL):] if text.startswith(LITERAL) else text)

    def parsed(self, words: Sequence[str]) -> argparse.Namespace:
        """Returns the arguments. Options may come after other arguments; after `--` there are none."""
        words = list(words)
        if '--' in words:
            at = words.index('--')
            words[at:] = [LITERAL + word for word in words[at + 1:]]
        return self.parse_intermixed_args(words)


def parser_of(module: Union[Command, ModuleType], name: str) -> Parser:
    """Returns the parser of a tool."""
    first, _, rest = (module.__doc__ or '').partition('\n')
    parser = Parser(prog=name, description=first, epilog=rest.strip('\n'), add_help=False,
                    formatter_class=argparse.RawDescriptionHelpFormatter)
    parser.add_argument('-h', '--help', action=Help, nargs=0, help='this text')
    cast(Command, module).arguments(parser)
    return parser


def status_of(module: Command, name: str, words: Optional[Sequence[str]]) -> Optional[int]:
    """Runs a tool. Returns its status. If an output goes to standard output, its texts go to standard error."""
    parser = parser_of(module, name)
    try:
        found = parser.parsed(sys.argv[1:] if words is None else words)
        getattr(module, 'complete', lambda _: None)(found)
        roles = list(roles_in(found))
        check(roles)
        is_taken = takes_standard_output(roles)
        texts: ContextManager[object] = contextlib.redirect_stdout(sys.stderr) if is_taken else contextlib.nullcontext()
        with texts, stoppable():        # until then nothing has to be removed
            status = module.run(found)
        return status
    except SystemExit as end:       # argparse: the help, or arguments that it does not know
        return cast(Optional[int], end.code)


def as_it_may_be(error: UnicodeError) -> Tuple[Union[str, bytes], int]:
    """Handles what standard output cannot show: a byte of a name that is not UTF-8 is written as it is, another
    character as an escape."""
    assert isinstance(error, UnicodeEncodeError)
    character = error.object[error.start]
    if '\udc80' <= character <= '\udcff':
        return bytes([ord(character) & 0xFF]), error.start + 1
    return ascii(character)[1:-1], error.start + 1


def guarded(name: str, work: Callable[[], Optional[int]]) -> int:
    """Does the work. Returns its status. No failure of a file ends in a traceback."""
    reason, status = '', TROUBLE
    if isinstance(sys.stdout, io.TextIOWrapper):
        codecs.register_error('psxgpu', as_it_may_be)
        sys.stdout.reconfigure(errors='psxgpu')
    try:
        status = work() or SAME
        if sys.stdout is not None:
            sys.stdout.flush()
        return status
    except ToolError as error:
        reason = str(error)
    except BrokenPipeError:
        pass
    except OSError as error:
        reason = reason_of(error)
    except MemoryError:
        reason = 'memory is short'
    except KeyboardInterrupt as stopped:
        status = FIRST_STATUS + getattr(stopped, 'number', Stopped().number)
        reason = str(stopped) or str(Stopped())
    # What can no longer be written is not tried again when Python ends.
    with contextlib.suppress(OSError, AttributeError):
        sys.stdout.flush()
    silence(1)
    if reason and sys.stderr is not None:
        print('%s: %s' % (name, ' '.join(reason.split('\n'))), file=sys.stderr)
    return status if status > TROUBLE else TROUBLE


def main(module: ModuleType, words: Optional[Sequence[str]] = None, name: Optional[str] = None) -> int:
    """Runs a tool by its arguments. Returns its status."""
    title_of_tool = name or os.path.basename(module.__file__ or module.__name__)
    return guarded(title_of_tool, lambda: status_of(cast(Command, module), title_of_tool, words))


@contextlib.contextmanager
def reading(path: str) -> Iterator[BinaryIO]:
    """A file to read bytes from; `-` is standard input."""
    try:
        if path == '-' and sys.stdin is None:
            raise ToolError('standard input: it is closed')
        if path == '-':
            yield sys.stdin.buffer
        else:
            with open(path, 'rb') as file, progress.following(file, path):
                yield file
    except BrokenPipeError:
        raise
    except OSError as error:
        named(error, title(path))
        raise


def read_whole(path: str) -> bytes:
    """Returns the bytes of a file; `-` is standard input."""
    with reading(path) as file:
        return file.read()


def pour(source: Readable, target: IO[bytes]) -> None:
    """Copies the rest of a file, block by block."""
    while True:
        block = source.read(BLOCK)
        if not block:
            return
        target.write(block)


def decimal(low: int, high: int) -> Callable[[str], int]:
    """Returns a type of argument for argparse: a decimal number from `low` to `high`."""
    def number(text: str) -> int:
        value = int(text) if re.fullmatch('-?[0-9]{1,30}', text) else None
        if value is None or not low <= value <= high:
            raise argparse.ArgumentTypeError('%s is not a number from %d to %d' % (text, low, high))
        return value
    return number
