#!/usr/bin/env python3
"""Long recordings in the viewer: python3 -m tests.viewer.measure_long [RECORDING ..]

Prints the times that each takes. Without a recording it makes one of a minute. Not part of the checks. docs/VIEWER.md
has times, and names the machine that they were measured on.
"""
import os
import random
import sys
import tempfile
import time

from tests.viewer.page import Page

from psxgpu.capture import Capture, corner, display_start, draw_mode, drawing_area, drawing_offset, fill, polygon, screen

FRAMES, QUADS = 30, 1650
CELLS = [(160, 120), (40, 200), (300, 30)]


def second(at):
    """Thirty frames on two sides in turn, each a fill and many small quads, most of them with a texture."""
    out = Capture(2)
    for frame in range(FRAMES):
        top = 240 * (frame % 2)
        words = [drawing_area(0, top, 319, top + 239), drawing_offset(0, top), draw_mode(dither=True),
                 fill(0x301000, 0, top, 320, 240)]
        for _ in range(QUADS):
            x, y, w, h = at.randrange(-8, 316), at.randrange(-8, 236), at.randrange(2, 24), at.randrange(2, 24)
            vertices, color = [(x, y), (x + w, y), (x, y + h), (x + w, y + h)], at.randrange(1 << 24)
            texture = None if at.random() < 0.1 else [(0, 0), (w, 0), (0, h), (w, h)]
            words.append(polygon(vertices, color, texture, page=0x08A, palette=0x7814, semi=at.random() < 0.1))
        out.gp0(words).gp1(display_start(0, top)).stat(2)
    return b''.join(out.records)


def minute():
    """A recording of 1,800 frames, about 100 MB."""
    at = random.Random(1)
    head = Capture(2).gp1(screen(0, 0, 320, 240)).gp0(0xA0000000, corner(512, 0), corner(512, 512),
                                                      [at.getrandbits(32) for _ in range(131072)])
    return head.bytes()[:-4] + 60 * second(at) + bytes(4)


def opened(page, path):
    """Opens a recording. Returns milliseconds until it is shown, until its last frame is, and until all is played."""
    page.evaluate('document.title = ""')
    started = time.time()
    page.choose('#open', path)
    page.until('document.title !== ""', 300)
    shown = time.time()
    page.until('probe.app.goal < 0', 600)
    there = time.time()
    page.until('probe.app.pass.isDone() && !probe.app.pass.isRunning', 600)
    return [1000 * (at - started) for at in (shown, there, time.time())]


def history(page, x, y):
    """Milliseconds until the first changes of a cell are listed, until all are, and their number."""
    return page.evaluate('''(async () => {
        const { app, pixel } = probe.viewer, started = performance.now();
        let first = 0;
        pixel.isWhole = false;
        app.choose({ x: %d, y: %d });
        while (!pixel.isWhole) {
            if (!first && pixel.history?.changes.length) first = performance.now() - started;
            await new Promise(go => setTimeout(go, 5));
        }
        return [first, performance.now() - started, pixel.history.changes.length];
    })()''' % (x, y))


def changed(page):
    """Milliseconds from leaving a packet out near the end until the view shows it, in order from the least."""
    out = []
    for back in range(5, 95, 10):
        out.append(page.evaluate('''(() => {
            const { app } = probe, { rows } = app.recording, { isDrawing } = module_stepping;
            let row = Math.max(0, rows.length - %d);
            while (row > 0 && !isDrawing(rows, row)) row--;
            app.seekRow(row);
            const began = performance.now();
            app.whatIf.toggle(row);
            return performance.now() - began; })()''' % back))
        page.until('probe.app.goal < 0 && probe.app.pass.isDone() && !probe.app.pass.isRunning', 600)
    return sorted(out)


def held(page):
    """The most MB that a process of a page has held. On Linux alone."""
    found = []
    for process in page.call('SystemInfo.getProcessInfo')['processInfo']:
        if process['type'] == 'renderer':
            with open('/proc/%d/status' % process['id'], encoding='ascii') as file:
                found += [int(line.split()[1]) / 1000 for line in file if line.startswith('VmHWM')]
    return max(found, default=0)


def measure(page, path):
    """Prints the times of one recording."""
    before = held(page)
    shown, there, played = opened(page, path)
    most = held(page)
    length = page.evaluate('probe.app.recording.length')
    print('%s: %d bytes, %d steps' % (os.path.basename(path), os.path.getsize(path), length))
    print('  shown after %d ms, its last frame after %d ms, all played after %d ms' % (shown, there, played))
    at = random.Random(2)
    places = page.ask('times', [at.randrange(length) for _ in range(100)])
    back = page.ask('times', [length - 9 * k for k in range(100)])
    print('  a random place: %d ms in the middle, %d at most; a step back: %d, %d'
          % (places[50], places[-1], back[50], back[-1]))
    for x, y in CELLS:
        print('  history of (%d, %d): first after %d ms, all after %d ms, %d changes' % (x, y, *history(page, x, y)))
    late = changed(page)
    print('  a change near the end: %d ms in the middle, %d at most' % (late[4], late[-1]))
    print('  %d states of %d MB, %d MB in all' % tuple(page.ask('kept')))
    print('  the module holds %d MB, the process of the page at most %d MB when all was played; %d MB before'
          % (page.ask('moduleBytes') / 1e6, most, before), flush=True)


def main():
    with tempfile.TemporaryDirectory() as folder, Page() as page:
        paths = sys.argv[1:] or [os.path.join(folder, 'minute.capture')]
        if not sys.argv[1:]:
            with open(paths[0], 'wb') as file:
                file.write(minute())
        for path in paths:
            measure(page, path)


if __name__ == '__main__':
    main()
