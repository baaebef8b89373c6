#!/usr/bin/env python3
"""Compares the tables that several languages have by hand. Each table has one source; the others are its copies.

    python3 .ci/harness/tables.py crates/psxgpu_tool/out/psxgpu_tool

| table | source |
|---|---|
| packet lengths | the proved program: crates/gp0_words/specs/Kinds.antt |
| tags that a version allows | the proved program: crates/gpu_capture/specs/Record.antt |
| kinds of records | crates/gpu_capture/specs/Written.antt |
| codes of the library | crates/psxgpu_c/specs/Codes.antt, and OF_C |
| modes of the library | crates/psxgpu_c/specs/Whole.antt |

Prints a line for each difference. Status: 0 none, 1 some, 2 an error, 77 none, but a copy could not be read here.
"""
import functools
import importlib
import sys
from typing import Callable, Iterator, List, NamedTuple, Sequence, Tuple

from table_readers import (TAGS, Absent, Reader, Table, c_constants, c_lengths, c_tags, document_kinds,
                           js_constants, js_value, numbered, program_lengths, program_tags, rattle_codes, rattle_kinds,
                           rattle_modes, rust_constants, rust_modes, scripts)


from examples import toy_gpu
from suite_trials.model.packets import Packets
from psxgpu import records
from psxgpu.machine import MODES
from psxgpu.packets.grammar import TABLE

HEADER, RECORDER, MODE = 'c/psxgpu.h', 'recorder/psxgpu_capture.h', 'MODE_'
CRATE = 'rust/psxgpu/src/'
TOY = 'examples/toy_gpu'            # of the skeletons of a player
NEVER = ('END', 'READ_FAULT')       # causes that no call returns: the header does not name them
# The code that c/play_to.c returns and no proved call.
OF_C = {'SINK_REFUSED': 21}


class Copy(NamedTuple):
    """A copy of a table: where it is, how it is read, and whether it has each entry of its source."""
    path: str
    read: Reader
    is_whole: bool = True


def differences(source: Table, copy: Table, is_whole: bool) -> Iterator[str]:
    """Yields a line for each entry that differs."""
    for key in [*copy, *(key for key in source if is_whole and key not in copy)]:
        if copy.get(key) != source.get(key):
            yield '%s is %s, its source has %s' % (key, copy.get(key), source.get(key))


def length_copies() -> List[Copy]:
    """Returns the copies of the packet lengths."""
    return [Copy('psxgpu/packets/split.py', lambda: numbered(length for _, length in TABLE)),
            Copy('suite_trials/model/packets.py', lambda: {k: Packets.length(Packets(), k << 24) for k in range(256)}),
            *in_scripts('const LENGTHS =', lambda path: numbered(js_value(path, 'LENGTHS', 'Array.from(LENGTHS)'))),
            Copy('recorder/ports.h', lambda: c_lengths('recorder/ports.h', 'packet_words')),
            Copy(TOY + '.h', lambda: c_lengths(TOY + '.h', 'length_of')),
            Copy(TOY + '.py', lambda: {k: toy_gpu.length_of(k << 24) for k in range(256)})]


def tag_copies() -> List[Copy]:
    """Returns the copies of what a tag may be."""
    def viewer(path: str) -> Table:
        tags = [[version, tag >> 24, tag & 0xFFFFFF] for version, tag in TAGS]
        each = '%s.map(([version, kind, count]) => isAllowed(kind, count, version))' % tags
        return dict(zip(TAGS, js_value(path, 'KIND,isAllowed', each)))
    return [Copy('psxgpu/records.py', lambda: {
                (version, tag): records.is_allowed(version, tag >> 24, tag & 0xFFFFFF) for version, tag in TAGS}),
            Copy(RECORDER, lambda: c_tags(RECORDER, 'psxgpu_allowed_')),
            *in_scripts('function isAllowed(', viewer)]


def kind_copies() -> List[Copy]:
    """Returns the copies of the kinds of records."""
    names = [kind.upper() for kind in records.KINDS]

    def by_number(found: Table) -> Table:
        return {number: name for name, number in found.items() if name in names}
    return [Copy('psxgpu/records.py', lambda: numbered(names)),
            *in_scripts('const KIND = { END', lambda path: by_number(js_value(path, 'KIND', 'KIND'))),
            Copy(RECORDER, lambda: by_number(c_constants(RECORDER, 'PSXGPU_')), False),
            Copy(CRATE + 'capture/record.rs', lambda: by_number(rust_constants(CRATE + 'capture/record.rs'))),
            Copy('docs/CAPTURE.md', document_kinds)]


def code_copies(codes: Table) -> List[Copy]:
    """Returns the copies of the library's codes: all of the header, and the names that scripts and modules use."""
    binding = importlib.import_module('psxgpu.machine.library')

    def script(path: str) -> Reader:
        return lambda: {name: value for name, value in js_constants(path) if name in codes}
    return [Copy(HEADER, lambda: {name: value for name, value in c_constants(HEADER, 'PSXGPU_').items()
                                  if not name.startswith(MODE)}),
            Copy('psxgpu/machine/library.py', lambda: {name: value for name, value in vars(binding).items() if name in codes},
                 False),
            Copy(CRATE + 'machine/ffi.rs', lambda: {name: value for name, value in rust_constants(
                CRATE + 'machine/ffi.rs').items() if name in codes}, False),
            *(Copy(path, script(path), False) for path in scripts())]


def mode_copies() -> List[Copy]:
    """Returns the copies of the library's modes."""
    return [Copy(HEADER, lambda: {value: name.lower().replace('_', ' ') for name, value
                                  in c_constants(HEADER, 'PSXGPU_' + MODE).items()}),
            Copy('psxgpu/machine/__init__.py', lambda: {value: name for name, value in MODES.items()}),
            Copy(CRATE + 'machine/playing.rs', lambda: rust_modes(CRATE + 'machine/playing.rs')),
            *in_scripts('const MODES =', lambda path: numbered(js_value(path, 'MODES', 'MODES')))]


def in_scripts(text: str, read: Callable[[str], Table]) -> List[Copy]:
    """Returns the copies of a table in the scripts that have a text. There is one at least."""
    found = scripts(text)
    return [Copy(path, functools.partial(read, path)) for path in found] or [Copy('web/*.js: ' + text, dict)]


def tables(player: str) -> List[Tuple[str, Reader, Sequence[Copy]]]:
    """Returns the tables: what each is, its source, and its copies."""
    codes = {'DONE': 0, **{name: code for name, code in rattle_codes().items() if name not in NEVER}, **OF_C}
    return [('packet lengths', lambda: program_lengths(player), length_copies()),
            ('tags', lambda: program_tags(player), tag_copies()),
            ('kinds of records', rattle_kinds, kind_copies()),
            ('codes', lambda: codes, code_copies(codes)),
            ('modes', rattle_modes, mode_copies())]


def main(player: str) -> int:
    """Prints the differences. Returns the status."""
    status, count = 0, 0
    for title, read_source, copies in tables(player):
        for path, read, is_whole in copies:
            try:
                source, copy = read_source(), read()
            except Absent as program:
                print('skipped: the %s of %s are compared where %s is installed' % (title, path, program))
                status = status or 77
                continue
            count += bool(copy)
            for line in differences(source, copy, is_whole):
                print('%s: %s: %s' % (title, path, line))
                status = 1
    print('%d copies compared' % count)
    return status


if __name__ == '__main__':
    if len(sys.argv) != 2:
        sys.exit(__doc__)
    try:
        sys.exit(main(sys.argv[1]))
    except Absent as missing:
        print('no program %s' % missing, file=sys.stderr)
        sys.exit(2)
