"""What ends a tool with status 2: `ToolError`, and the one-line reason of a failure of a file."""
from typing import TypeVar

Failure = TypeVar('Failure', bound=OSError)


class ToolError(ValueError):
    """An error that ends a tool with status 2. Its text is the line that the user sees."""


def title(path: str) -> str:
    """Returns the name of an input in a message."""
    return 'standard input' if path == '-' else path


def named(error: Failure, path: str) -> Failure:
    """Returns `error` with `path` as its file, unless it has one."""
    if error.filename is None:
        error.filename = path
    return error


def reason_of(error: OSError) -> str:
    """Returns the file and the reason of a failure, in one line."""
    name = error.filename if error.filename is not None else 'standard output'
    return '%s: %s' % (name, error.strerror or error)


def counted(count: int, what: str, ending: str = 's') -> str:
    """Returns a number with its noun. `ending`: of the plural."""
    return '%d %s%s' % (count, what, '' if count == 1 else ending)
