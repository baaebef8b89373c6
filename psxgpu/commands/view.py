"""Opens a recording in the browser, at a place.

    psxgpu view wrong.capture --at 2947.60 --view drawn --cell 150,140
    psxgpu view ours.capture theirs.capture         the second is compared with the first
    psxgpu view wrong.capture --print               prints the path of the page instead
    psxgpu view --follow game.capture               shows the last frame while an emulator records

The page and the arguments are those of `psxgpu page`. It is a file in the folder for temporary files ($TMPDIR), which
stays for the browser: a later `psxgpu view` removes it when it is a day old. No server is needed. xdg-open (macOS:
open, Windows: start) starts the browser.

--follow takes one file that is being written, and shows its last frame. Here a server on this machine gives the page
the new bytes. Only the page knows its address. It ends some seconds after the page is closed, or with Ctrl-C.

Status: 0 opened, 2 an error.
"""
import argparse

from psxgpu.command import ToolError
from psxgpu.viewing import asked
from psxgpu.viewing.browser import MAKER, kept, open_page
from psxgpu.viewing.following import server_of
from psxgpu.viewing.place import Place
from psxgpu.viewing.template import page, viewer


def arguments(parser: argparse.ArgumentParser) -> None:
    """Adds the arguments of this tool."""
    asked.arguments(parser)
    parser.add_argument('--print', dest='is_printed', action='store_true',
                        help='print the path of the page, and open nothing')
    parser.add_argument('--follow', action='store_true', help='show the last frame of a capture that is being written')


def run(words: argparse.Namespace) -> None:
    """Opens the page."""
    if words.follow:
        follow(words)
        return
    path = kept(page(viewer(words.viewer), [asked.case_of(words)], MAKER))
    if words.is_printed:
        print(path)
    else:
        open_page(path)


def follow(words: argparse.Namespace) -> None:
    """Shows a file while it grows, until the page is closed. Raises ToolError if the arguments name a place in it."""
    if len(words.captures) != 1:
        raise ToolError('--follow takes one file')
    if words.at or words.frame:
        raise ToolError('--follow shows the last frame: leave out --at and --frame')
    place = Place('', words.view or '', words.cell, words.zoom or '')
    server = server_of(words.captures[0], viewer(words.viewer), place, words.note)
    with server.running_in_thread():
        if words.is_printed:
            print(server.address, flush=True)
        else:
            open_page(server.address)
        server.wait()
