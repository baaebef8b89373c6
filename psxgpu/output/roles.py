"""What the arguments of a tool name: files that are read, files and folders that are written, commands, and text.

Each argument of a tool has one of these types (`parser.add_argument(.., type=Source)`). So all that a tool reads and
writes is known before it starts, and `checking.check` refuses what would lose a file.
"""
import argparse
import os
from typing import Callable, Iterable, Iterator, List, Optional, Sequence, Tuple

from psxgpu.output.files import stream_of

STANDARD_OUTPUT = 1
PACKERS = ('.gz', '.xz', '.zst')
FOREIGN = ('.7z', '.br', '.bz2', '.lz4', '.lzma', '.lzo', '.rar', '.tar', '.tgz', '.zip')
PICTURES = ('', '.png', '.ppm')


class Text(str):
    """What is neither a file nor a command."""


class Role(str):
    """Base of what names files."""


class Source(Role):
    """A file that is read, or a folder of such files; `-` is standard input."""


class Command(Source):
    """A program or a shell command. The files that it names are read, too."""


class Target(Role):
    """A file that is written as it is; `-` is standard output."""

    def __new__(cls, text: str) -> 'Target':
        """Raises ArgumentTypeError if the end of the name asks for a form that is not written."""
        ending = os.path.splitext(text)[1].lower()
        if ending in cls.refused():
            raise argparse.ArgumentTypeError('%s: %s is not written: %s' % (text, ending, cls.forms()))
        return super().__new__(cls, text)

    @classmethod
    def refused(cls) -> Sequence[str]:
        """Returns the ends of names that are not written."""
        return FOREIGN + PACKERS

    @classmethod
    def forms(cls) -> str:
        """Returns what is written, in words."""
        return 'the file is not packed'


class Packed(Target):
    """A file that is written packed if its name ends in .gz, .xz or .zst."""

    @classmethod
    def refused(cls) -> Sequence[str]:
        return FOREIGN

    @classmethod
    def forms(cls) -> str:
        return 'name a file without it, or with .gz, .xz or .zst'


class Grown(Packed):
    """A file that keeps all that it has, so it may be one of those that are read."""


class Picture(Target):
    """A picture: PNG, or PPM if its name ends in .ppm."""

    def __new__(cls, text: str) -> 'Picture':
        ending = os.path.splitext(text)[1].lower()
        if ending not in PICTURES and not text.startswith('/dev/'):
            raise argparse.ArgumentTypeError('%s: %s is not written: pictures are .png or .ppm' % (text, ending))
        return str.__new__(cls, text)


class Tree(Role):
    """A folder that is written: new, empty, or written by `maker` before."""
    maker = ''


class Stem(Role):
    """The beginning of the names of several files. `endings`: their ends; `proof`: the end of the file that shows
    whether they were written by the same tool, and a pattern of its first line."""
    endings: Tuple[str, ...] = ()
    proof: Tuple[str, str] = ('', '')

    def paths(self) -> List[str]:
        """Returns the paths of the files."""
        return [self + ending for ending in self.endings]


def tree(maker: str) -> Callable[[str], Tree]:
    """Returns a type of argument: a folder that `maker` writes."""
    def folder(text: str) -> Tree:
        found = Tree(text)
        found.maker = maker
        return found
    return folder


def stem(endings: Tuple[str, ...], proof: Tuple[str, str]) -> Callable[[str], Stem]:
    """Returns a type of argument: the beginning of the names of files."""
    def name(text: str) -> Stem:
        found = Stem(text)
        found.endings, found.proof = endings, proof
        return found
    return name


class Once(argparse.Action):
    """An output that is named at most once: in its place, or with -o."""

    def __call__(self, parser: argparse.ArgumentParser, words: argparse.Namespace, value: object,
                 option: Optional[str] = None) -> None:
        old = getattr(words, self.dest, self.default)
        if value == self.default:
            return
        if old != self.default and old is not None:
            raise argparse.ArgumentError(self, 'two outputs are named: %s and %s' % (old, value))
        setattr(words, self.dest, value)


def once(parser: argparse.ArgumentParser, name: str, kind: Callable[[str], Role], text: str,
         default: Optional[str] = None) -> None:
    """Adds an output that is named in its place or with -o."""
    parser.add_argument(name, nargs='?', action=Once, type=kind, metavar=name.upper(), default=default, help=text)
    parser.add_argument('-o', '--output', dest=name, action=Once, type=kind, metavar=name.upper(), default=default,
                        help='the same as %s' % name.upper())


def roles_in(words: argparse.Namespace) -> Iterator[Role]:
    """Yields what the arguments name."""
    for value in vars(words).values():
        for one in value if isinstance(value, list) else [value]:
            if isinstance(one, Role):
                yield one


def takes_standard_output(roles: Iterable[Role]) -> bool:
    """Returns whether an output goes to standard output."""
    return any(isinstance(role, Target) and stream_of(role) == STANDARD_OUTPUT for role in roles)
