#!/usr/bin/env python3
"""Takes the pictures of docs/VIEWER.md: python3 -m tests.viewer.screenshots, after `make web`.

With Pillow (Debian: python3-pil) they have 256 colours, and so a third of the size."""
import os

from tests.viewer.page import EXAMPLES, ROOT, Page

DOCS = os.path.join(ROOT, 'docs')
# One face of the cube with another palette.
RIGHT = bytes.fromhex('9080782c8000700000000078')
WRONG = bytes.fromhex('9080782c8000700000004078')


def take(page, name):
    """Takes a picture of the window."""
    path = os.path.join(DOCS, name)
    page.screenshot(path)
    try:
        from PIL import Image
    except ImportError:
        return
    with Image.open(path) as image:
        small = image.convert('RGB').quantize(256, method=Image.Quantize.MEDIANCUT, dither=Image.Dither.NONE)
    small.save(path, optimize=True)


def main():
    with open(os.path.join(EXAMPLES, 'textured-frame.capture'), 'rb') as file:
        data = file.read()
    with Page() as page:
        page.size(1360, 800)
        page.load(data, 'textured-frame.capture')
        page.ask('pixel', 110, 130)
        page.evaluate('probe.app.seekRow(72)')
        take(page, 'viewer.png')
        page.load(data.replace(RIGHT, WRONG), 'wrong.capture')
        page.ask('pixel', 150, 140)
        take(page, 'viewer-pixel.png')
        page.evaluate('document.querySelector("#history .row[aria-selected=true]").click()')
        page.press('4', '4')
        page.set('#palette', '0,480')
        take(page, 'viewer-texture.png')
        page.set('#palette', '')
        page.press('2', '2')
        page.evaluate('[...document.querySelectorAll("#packet button")]'
                      '.find(it => it.textContent === "Change").click()')
        page.set('#packet input[aria-label="palette: x, y"]', '0, 480')
        page.ask('played')
        take(page, 'viewer-changed.png')


if __name__ == '__main__':
    main()
