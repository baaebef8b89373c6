"""Runs the tools of this project: psxgpu NAME .. (in a checkout: bin/psxgpu NAME ..).

`psxgpu NAME --help` or `psxgpu help NAME` explains the arguments of a tool, `psxgpu help NAME --OPTION` lists the
values of an option that has some, `psxgpu --version` prints the version.
Status: 0 equal, or done; 1 different, or something to look at; 2 an error, with one line on standard error.
"""
from __future__ import annotations

import sys

TYPE_CHECKING = False       # until `main` has the signals, Ctrl-C ends in a traceback: nothing that takes time loads
if TYPE_CHECKING:
    import signal
    from types import ModuleType
    from typing import List, Optional
else:
    import _signal as signal        # the part of signal in C

TOOLS = ('corpus', 'packets', 'check', 'first', 'trim', 'join', 'mend', 'from-log', 'from-dump', 'to-dump', 'to-exe',
         'view', 'page', 'picture', 'film', 'textures', 'heat', 'diff', 'compare', 'bisect', 'agree', 'audit', 'reduce',
         'fuzz', 'conform', 'selftest')


def module_of(name: str) -> ModuleType:
    """Returns the module of a tool."""
    import importlib
    return importlib.import_module('psxgpu.commands.' + name.replace('-', '_'))


def help_text() -> str:
    """Returns the text of the command: the tools, a line each."""
    lines = [(__doc__ or '').strip(), '']
    for name in TOOLS:
        lines.append('  %-10s %s' % (name, (module_of(name).__doc__ or '').split('\n', 1)[0]))
    return '\n'.join(lines)


def main(words: Optional[List[str]] = None) -> int:
    """Runs a tool by its name and arguments. Returns the status."""
    if signal.getsignal(signal.SIGINT) is signal.default_int_handler:
        signal.signal(signal.SIGINT, signal.SIG_DFL)    # no traceback while modules load
    from psxgpu import command
    words = sys.argv[1:] if words is None else words
    name, rest = (words[0], words[1:]) if words else ('--help', [])
    if name == 'help' and rest[:1] and rest[0] in TOOLS:
        if rest[1:]:
            return command.guarded('psxgpu', lambda: print_values(rest[0], rest[1]))
        name, rest = rest[0], ['--help']
    if name in TOOLS:
        return command.main(module_of(name), rest, 'psxgpu ' + name)
    return command.guarded('psxgpu', lambda: answer(name))


def print_values(tool: str, option: str) -> None:
    """Prints the values of an option, a line each, if it has some: shells complete them."""
    from psxgpu.command import parser_of
    module = module_of(tool)
    action = parser_of(module, 'psxgpu ' + tool)._option_string_actions.get(option)
    more = getattr(module, 'VALUES', {}).get(option)
    values = more() if more else action.choices if action and action.choices else ()
    sys.stdout.write(''.join('%s\n' % value for value in values))


def answer(name: str) -> None:
    """Prints the help or the version. Raises ToolError for another word."""
    import os
    from psxgpu import __version__
    from psxgpu.errors import ToolError
    if name in ('-h', '--help', 'help'):
        print(help_text())
    elif name in ('--version', '-V', 'version'):
        print('psxgpu ' + __version__)
    elif os.path.exists(name):
        raise ToolError('%s is a file: the name of a tool comes before it, as in psxgpu check %s' % (name, name))
    else:
        import difflib  # it is large, and rarely wanted
        near = difflib.get_close_matches(name, TOOLS, 1)
        raise ToolError('there is no tool %r%s: the tools are %s'
                      % (name, ', perhaps %s' % near[0] if near else '', ', '.join(TOOLS)))


if __name__ == '__main__':
    sys.exit(main())
