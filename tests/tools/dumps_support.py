"""What the tests of GPU dumps share: a dump made by hand, and what is made of one."""
import glob
import io
import os
import shutil
import struct
import subprocess

from tests import support
from psxgpu import capture as c
from psxgpu.dumps.format import HEAD
from psxgpu.dumps.reader import Dump
from psxgpu.dumps.translation import END, Translation
from psxgpu.packing import Damaged
from psxgpu.stream import Stream

# Recordings of real programs: those of the folder that RECORDINGS names, or beside the checkout.
RECORDINGS = sorted(glob.glob(os.path.join(
    os.environ.get('RECORDINGS', os.path.join(os.path.dirname(support.TOP), 'shared', 'trials', 'real', 'captures')),
    '*.capture.zst')))
ALL_EXAMPLES = sorted(glob.glob(os.path.join(support.EXAMPLES, '*.capture*')))
HAS_ZSTD = shutil.which('zstd') is not None
CAPTURE = c.Capture().gp0(c.load(0, 0, 64, 64, [(7 * k * k) & 0xFFFF for k in range(4096)])).stat().bytes()


def zstd(data):
    """Bytes that the program zstd has packed."""
    return subprocess.run(['zstd', '-qc'], input=data, stdout=subprocess.PIPE, check=True).stdout


def packet(kind, *words):
    """A packet of a dump."""
    return struct.pack('<%dI' % (1 + len(words)), kind << 24 | len(words), *words)


# What DuckStation writes: GPU, game, format, the state, the trace's begin, two frames; and a type that is not known.
PACKETS = [
    packet(6, 1), packet(0x10, 0x53554C53, 0x3030302D, 0x00313030), packet(0x11, 0x4353544E, 0),
    packet(1, 0x03000000), packet(1, 0x08000001), packet(0, 0xE1000000), packet(0, 0xE3000000),
    packet(0, 0xE407FFFF), packet(0, 0xA0000000, 0, 0x00010002, 0x7FFF001F), packet(5),
    packet(0, 0x600000FF, 0x00080008, 0x00020002), packet(2, 564480, 0), packet(0x77, 1, 2, 3), packet(0),
    packet(0, 0xC0000000, 0, 0x00010002), packet(4, 0x7FFF001F), packet(0, 0xC0000000, 0, 0x00010002), packet(3, 1),
    packet(2, 1128960, 0)]
HAND_MADE = HEAD + b''.join(PACKETS)


class Taken:
    """What a dump's bytes become: the records of the capture, its version, the lines of reads, and the error."""

    def __init__(self, data):
        self.lines, self.fault, out = [], None, b''
        self.translation = Translation(Dump(io.BytesIO(data), 'dump'), self.lines.append)
        try:
            for piece in self.translation:
                out += piece
        except Damaged as fault:
            self.fault = str(fault)
            out += END
        stream = Stream(io.BytesIO(out), 'capture', exact=True)
        self.version = stream.version
        self.records = [(kind, count, list(words)) for kind, count, words in stream]

    def words(self, wanted):
        """The words of one kind of record."""
        return [word for kind, _, words in self.records if kind == wanted for word in words]
