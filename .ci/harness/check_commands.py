#!/usr/bin/env python3
"""Runs the command lines of documents and compares what they write.

    python3 .ci/harness/check_commands.py crates/psxgpu_tool/out/psxgpu_tool README.md docs/*.md

A command is in an indented block after `$ ` (in a .txt file without the indent). The lines below it, up to a blank line
or the next command, are its output, errors included. It runs at the top of a copy of examples/, psxgpu/, docs/ and
bench/, with PLAYER as psxgpu_tool. Of a .md file, links to files and headings are checked too, and that each name after
`crate/folder/File: name, name` is in that file. The last line is `N passed, M failed`. Status: 0 all passed, 1 some
failed, 2 an error.
"""
import os
import re
import shutil
import subprocess
import sys
import tempfile

ROOT = os.path.dirname(os.path.dirname(os.path.dirname(os.path.abspath(__file__))))

from psxgpu.command import DIFFERENT, SAME, main

SECONDS = 120


def commands(path):
    """The commands of a file: (line, command, what it writes)."""
    least = 0 if path.endswith('.txt') else 4
    found, command, indent = [], None, ''
    with open(path) as file:
        for at, line in enumerate(file, 1):
            line = line.rstrip('\n')
            begins = re.match(r'( *)\$ ', line)
            if command is not None and command[1].endswith('\\'):
                command[1] = command[1][:-1] + line.strip()
            elif begins and len(begins[1]) >= least:
                indent = begins[1]
                command = [at, line[len(indent) + 2:], []]
                found.append(command)
            elif not line.strip() or not line.startswith(indent):
                command = None
            elif command is not None:
                command[2].append(line[len(indent):])
    return found


def in_root(name):
    """Returns whether there is a file of this name at the top."""
    return os.path.exists(os.path.join(ROOT, name))


def stand_in(folder, player):
    """Lays out a copy to run in, with the player on the path."""
    for name in filter(in_root, ('examples', 'psxgpu', 'docs', 'bench')):
        shutil.copytree(os.path.join(ROOT, name), os.path.join(folder, name),
                        ignore=shutil.ignore_patterns('__pycache__'))
    for name in filter(in_root, ('crates', 'recorder', 'systems', 'Makefile', 'README.md')):
        os.symlink(os.path.join(ROOT, name), os.path.join(folder, name))
    os.mkdir(os.path.join(folder, 'bin'))
    os.symlink(os.path.abspath(player), os.path.join(folder, 'bin', 'psxgpu_tool'))
    if in_root('bin'):          # else the package is installed
        shutil.copy(os.path.join(ROOT, 'bin', 'psxgpu'), os.path.join(folder, 'bin'))


def run_command(folder, command):
    path = os.path.join(folder, 'bin') + os.pathsep + os.environ['PATH']
    try:
        done = subprocess.run(['sh', '-c', command], cwd=folder, env=dict(os.environ, PATH=path),
                              stdin=subprocess.DEVNULL, stdout=subprocess.PIPE, stderr=subprocess.STDOUT,
                              timeout=SECONDS)
    except subprocess.TimeoutExpired:
        return ['no end in %d seconds' % SECONDS]
    return done.stdout.decode(errors='replace').splitlines()


def first_difference(got, want):
    k = 0
    while k < min(len(got), len(want)) and got[k] == want[k]:
        k += 1
    return k + 1, got[k] if k < len(got) else None, want[k] if k < len(want) else None


def anchors(path):
    """The names by which the headings of a .md file are linked: small letters, hyphens for spaces, no other signs."""
    with open(path) as file:
        headings = re.findall('^#+ (.*)', file.read(), re.M)
    return {re.sub(r'[^\w -]', '', heading.lower()).replace(' ', '-') for heading in headings}


def dead_links(path):
    """Returns the links of a .md file to files and headings that are not there, as lines of text."""
    with open(path) as file:
        text = file.read()
    for link, anchor in re.findall(r'\]\(\s*([^)#:]*)(?:#([^):]*))?\)', text):
        target = os.path.join(os.path.dirname(path), link) if link else path
        if not os.path.exists(target):
            yield 'no file ' + link
        elif anchor and target.endswith('.md') and anchor not in anchors(target):
            yield 'no heading %s#%s' % (link, anchor)


def references(path):
    """What a .md file says of other files and does not hold: lines of text."""
    yield from dead_links(path)
    with open(path) as file:
        text = file.read()
    for name in re.findall(r'`((?:docs|examples|psxgpu|bench|crates)/[\w./*-]*)`', text):
        if '*' not in name and not os.path.exists(os.path.join(ROOT, name)):
            yield 'no file ' + name
    for name, words in re.findall(r'`(\w+/(?:specs|src|proofs|must-fail)/[\w./-]+)(?:: ([^`]*))?`', text):
        place = os.path.join(ROOT, 'crates', name)
        if in_root(name):
            continue            # of a folder beside the crates
        if not os.path.exists(place):
            yield 'no file crates/' + name
            continue
        with open(place) as file:
            held = set(re.findall(r'\w+', file.read()))
        for word in re.findall(r'\w+', words):
            if word not in held:
                yield 'no %s in crates/%s' % (word, name)


def check_file(folder, path):
    """How many commands and references of a file passed and failed; what failed is printed."""
    short = os.path.relpath(path, ROOT)
    passed = failed = 0
    for at, command, want in commands(path):
        got = run_command(folder, command)
        if got == want:
            passed += 1
            continue
        failed += 1
        print('%s:%d: %s' % (short, at, command))
        print('  line %d: %r, want %r' % first_difference(got, want))
    if path.endswith('.md'):
        wrong = sorted(set(references(path)))
        passed, failed = passed + (not wrong), failed + len(wrong)
        for text in wrong:
            print('%s: %s' % (short, text))
    return passed, failed


def arguments(parser):
    parser.add_argument('player', help='the built psxgpu_tool')
    parser.add_argument('files', nargs='+', help='documents')


def run(words):
    with tempfile.TemporaryDirectory() as folder:
        stand_in(folder, words.player)
        counts = [check_file(folder, path) for path in words.files]
    passed, failed = map(sum, zip(*counts))
    print('%d passed, %d failed' % (passed, failed))
    return DIFFERENT if failed else SAME


if __name__ == '__main__':
    sys.exit(main(sys.modules[__name__]))
