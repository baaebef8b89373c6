"""Measures how a recording that grows is shown, in Chromium: python3 -m tests.viewer.measure_following CAPTURE RATE ..

For each rate, a writer appends the frames of the capture (which may be an .xz file) in this number a second; 0: as fast
as it can. Prints the frames a second that are shown, and the delays from a frame in the file to its picture.
"""
import os
import statistics
import sys
import tempfile
import time

from tests.viewer.page import Page
from tests.viewer.recordings import unpacked
from tests.viewer.test_following import followed, show

LEAST = 300     # frames
# Each picture: how many frames are in the recording up to the place, and when it was drawn (milliseconds).
LISTEN = '''window.shown = []; probe.app.on('moved', () => { const { at, recording } = probe.app;
    shown.push([recording.flips.filter(step => step < at).length, Date.now()]); });'''


def frames_of(data):
    """The bytes of each frame: up to a write of the display start. The rest is left out."""
    out, begin, at = [], 8, 8
    while at < len(data):
        word = int.from_bytes(data[at:at + 4], 'little')
        kind, count = word >> 24, word & 0xFFFFFF
        size = {1: 1 + count, 2: count, 3: 1, 6: 3, 7: 3}.get(kind, 0)
        at += 4 + 4 * size
        if kind == 3 and data[at - 1] & 0x3F == 5:
            out.append(data[begin:at])
            begin = at
    return out


def written(path, frames, rate):
    """Writes the frames. Returns when each was written (milliseconds)."""
    times, begun = [], time.time()
    with open(path, 'ab', buffering=0) as file:
        for number, frame in enumerate(frames):
            if rate:
                time.sleep(max(0, begun + number / rate - time.time()))
            file.write(frame)
            times.append(1000 * time.time())
    return times


def measure(page, data, rate):
    """Shows the frames of a capture as they are written."""
    frames = frames_of(data)
    frames *= -(-LEAST // len(frames))
    with tempfile.TemporaryDirectory() as folder:
        path = os.path.join(folder, 'game.capture')
        with open(path, 'wb') as file:
            file.write(data[:8] + frames[0])
        with followed(path) as (_, address):
            show(page, address)
            page.until('probe.app.recording && probe.app.at === probe.app.recording.length')
            page.evaluate(LISTEN)
            times = written(path, frames[1:], rate)
            page.until('probe.app.recording.flips.length >= %d && probe.app.at === probe.app.recording.length'
                       % len(frames), 300)
            shown = [(number - 2, at) for number, at in page.evaluate('shown') if number >= 2]
    seconds = (shown[-1][1] - shown[0][1]) / 1000
    delays = [at - times[number] for number, at in shown]
    print('rate %s: %d of %d frames shown, %.1f a second; delay %.0f ms (median), %.0f ms (worst)'
          % (rate or 'any', len(shown), len(times), (len(shown) - 1) / seconds if seconds else 0,
             statistics.median(delays), max(delays)), flush=True)


def main():
    """Measures each rate."""
    path, *rates = sys.argv[1:]
    if path.endswith('.xz'):
        data = unpacked(path)
    else:
        with open(path, 'rb') as file:
            data = file.read()
    with Page() as page:
        for rate in rates:
            measure(page, data, int(rate))


if __name__ == '__main__':
    main()
