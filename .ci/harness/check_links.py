#!/usr/bin/env python3
"""Prints the links of documents that lead nowhere: check_links.py FILE.md ..

Status: 0 each leads to a file and a heading of it, 1 some do not.
"""
import sys

from check_commands import dead_links

dead = ['%s: %s' % (path, text) for path in sys.argv[1:] for text in dead_links(path)]
print('\n'.join(dead), end='\n' if dead else '')
sys.exit(bool(dead))
