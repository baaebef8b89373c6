"""What the tests of the library and its bindings share: the program to compare with, and the examples."""
import glob
import os
import subprocess
import unittest

import psxgpu
from tests.support import EXAMPLES as FOLDER, PLAYER, TOP, needs_player

EXAMPLES = sorted(glob.glob(os.path.join(FOLDER, '*.capture')))
__all__ = ['EXAMPLES', 'PLAYER', 'TOP', 'needs_library', 'needs_player', 'bytes_at', 'play', 'knows']


def needs_library():
    """Skips the tests of a module, with a line, if no library is built. For `setUpModule`."""
    try:
        psxgpu.library()
    except psxgpu.Missing as missing:
        raise unittest.SkipTest('no library is built (make lib): %s' % missing) from None


def bytes_at(path):
    with open(path, 'rb') as file:
        return file.read()


def play(command, data):
    """Status, output and first line of error of a command such as 'pixel 20 30'."""
    done = subprocess.run([PLAYER] + command.split(), input=data, capture_output=True)
    return done.returncode, done.stdout, (done.stderr.decode().splitlines() or [''])[0]


def knows(command):
    """Whether the program has this command: an empty input is then a capture that breaks off."""
    return play(command, b'')[2] == 'psxgpu: truncated at event 1 byte 0'
