"""What was recorded, and what was not."""
import argparse
import glob
import os
import re
import signal
from typing import Dict, List, Tuple

from emulation import Outcome
from failure import Bad
from mend import mend

OURS = 'psxgpu_record: '
State = Tuple[int, int, int]


def parts(capture: str) -> Dict[str, State]:
    """Returns the files of a recording, CAPTURE and CAPTURE.2 and so on, each with what changes when it is written."""
    names = [capture] + [path for path in glob.glob(glob.escape(capture) + '.*') if path[len(capture) + 1:].isdigit()]
    found = {}
    for path in names:
        if os.path.isfile(path):
            status = os.stat(path)
            found[path] = status.st_ino, status.st_mtime_ns, status.st_size
    return found


def mended(capture: str, before: Dict[str, State]) -> List[str]:
    """Makes whole what this run recorded. Returns the files that were not. Files of earlier runs stay as they are."""
    written = [path for path, state in parts(capture).items() if before.get(path) != state]
    return [path for path in sorted(written) if os.path.getsize(path) >= 8 and mend(path)]


def last_line(said: List[str]) -> str:
    """Returns the last line of the emulator's own."""
    lines = [line for line in said if line.strip() and not line.startswith(OURS)]
    return lines[-1].strip() if lines else 'nothing'


def judge(outcome: Outcome, before: Dict[str, State], arguments: argparse.Namespace) -> None:
    """Prints what was recorded. Bad, with the reason, if that is not what was asked for. `before`: the files of an
    earlier recording."""
    ours = [line[len(OURS):] for line in outcome.said if line.startswith(OURS)]
    if arguments.tty:
        print(''.join(line + '\n' for line in outcome.said if not line.startswith(OURS)), end='')
    broken = mended(arguments.capture, before)
    failed = [line for line in ours if line.startswith(('failed: ', 'no plugin')) or ' is no ' in line]
    if failed:
        raise Bad(failed[0].replace('failed: ', '', 1))
    if not ours and not broken:
        raise Bad('the emulator recorded nothing; it said: %s' % last_line(outcome.said))
    for line in ours:
        print(line)
    for path in broken:
        raise Bad('%s: the emulator did not end it; what it holds was made whole' % path)
    frames = sum(int(number) for line in ours for number in re.findall(r': (\d+) frames, ', line))
    expect_frames(frames, outcome, arguments)


def expect_frames(frames: int, outcome: Outcome, arguments: argparse.Namespace) -> None:
    """Bad if fewer frames were recorded than asked for. If FRAMES is 0, any end is the end that was asked for."""
    if outcome.signal:
        name = signal.Signals(outcome.signal).name
        raise Bad('ended by %s after %d frames; what was recorded is whole' % (name, frames), 128 + outcome.signal)
    if not outcome.in_time and frames < arguments.frames:
        raise Bad('%g seconds were over before %d frames; what was recorded is whole'
                  % (arguments.seconds, arguments.frames))
    if frames < arguments.frames or not frames:
        reason = '; it said: %s' % last_line(outcome.said) if not frames else ''
        raise Bad('the emulator ended after %d of %d frames%s; what was recorded is whole'
                  % (frames, arguments.frames, reason))
