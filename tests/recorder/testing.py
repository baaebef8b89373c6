"""What the tests of this folder share."""
import os
import resource
import signal

HERE = os.path.dirname(os.path.abspath(__file__))
TOP = os.path.dirname(os.path.dirname(HERE))
RECORDER = os.path.join(TOP, 'recorder')
PLAYER = os.environ.get('PLAYER')  # the built program

from psxgpu.capture import CLEAR_TABLE, GP0, LIST, Capture, events, records  # noqa: F401


def file_of(bytes_most):
    """For the child: no file may become longer, as on a full disk."""
    def limit():
        signal.signal(signal.SIGXFSZ, signal.SIG_IGN)
        resource.setrlimit(resource.RLIMIT_FSIZE, (bytes_most, bytes_most))
    return limit


def event_list(data):
    """The events of a capture, the words of GP0 as numbers, whatever records they stand in."""
    out = []
    for record in records(data)[1]:
        out.extend(record[2] if record[0] == GP0 else events([record]))
    return out
