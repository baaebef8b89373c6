"""A page as a temporary file, opened in the browser of the user. The next run removes the pages of the days before."""
from __future__ import annotations

import contextlib
import os
import re
import shutil
import subprocess
import sys
import tempfile
import time

from psxgpu.command import ToolError
from psxgpu.output import remove

MAKER = 'psxgpu view'
PREFIX, ENDING = 'psxgpu-view-', '.html'
OLD = 86400                 # seconds: a browser may read its page again until then
PATIENCE = 5                # seconds in which an opener fails, if it does; a browser that it starts may stay
OPENERS = {'darwin': ['open'], 'win32': ['cmd', '/c', 'start', '']}


def is_old(path: str, owner: int) -> bool:
    """Returns whether a file is a page that `view` wrote for the same user more than a day ago."""
    with contextlib.suppress(OSError):
        found = os.stat(path, follow_symlinks=False)
        if found.st_uid != owner or found.st_mtime > time.time() - OLD:
            return False
        with open(path, 'rb') as file:
            return file.readline().endswith(b'<!-- %s -->\n' % MAKER.encode())
    return False


def remove_old(folder: str, owner: int) -> None:
    """Removes the old pages of a folder."""
    for name in os.listdir(folder):
        path = os.path.join(folder, name)
        if re.fullmatch(PREFIX + r'\w+' + re.escape(ENDING), name) and is_old(path, owner):
            with contextlib.suppress(OSError):
                remove(path)


def kept(data: bytes) -> str:
    """Writes a page into a new file of the folder for temporary files. Returns its path."""
    with tempfile.NamedTemporaryFile(prefix=PREFIX, suffix=ENDING, delete=False) as file:
        file.write(data)
    with contextlib.suppress(OSError):
        remove_old(os.path.dirname(file.name), os.stat(file.name).st_uid)
    return file.name


def open_page(path: str) -> None:
    """Opens a page in the user's browser: a file or an address. Raises ToolError, which names the page, if nothing opens it."""
    opener = OPENERS.get(sys.platform, ['xdg-open'])
    if not shutil.which(opener[0]):
        raise ToolError('there is no %s: open %s in a browser' % (opener[0], path))
    child = subprocess.Popen([*opener, path], stdin=subprocess.DEVNULL, stdout=subprocess.DEVNULL,
                             stderr=subprocess.DEVNULL, start_new_session=True)
    with contextlib.suppress(subprocess.TimeoutExpired):
        status = child.wait(PATIENCE)
        if status:
            raise ToolError('%s: status %d: open %s in a browser' % (opener[0], status, path))
