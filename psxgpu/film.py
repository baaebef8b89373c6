"""Films: each picture that a capture shows, through ffmpeg."""
import collections
import contextlib
import itertools
import re
import shutil
import subprocess
import tempfile
from typing import IO, Dict, List, NamedTuple, Optional, Tuple, cast

from psxgpu.command import ToolError
from psxgpu.corpus.scan import FLIP, MARK, copy_bytes, past_head, records, take_words
from psxgpu.players import player
from psxgpu.players.numbering import Ends
from psxgpu.players.named import said_last
from psxgpu.records import END, GP1
from psxgpu.records import encode as record
from psxgpu.stopping import scratch, session

FRAME = re.compile(rb'(\d{1,20}) (\d{1,5}) (\d{1,5}) [0-9a-f]{64}\n')      # a line of `sums`
# How ffmpeg encodes: for players of video, or so that each pixel stays as it is (FFV1), with the same bytes in each run.
SHOWN = ['-pix_fmt', 'yuv420p']
LOSSLESS = ['-c:v', 'ffv1', '-level', '3', '-pix_fmt', 'bgr0', '-fflags', '+bitexact', '-flags:v', '+bitexact',
            '-f', 'matroska']
RESET, SIZING = 0x00, (0x05, 0x06, 0x07, 0x08)     # opcodes of GP1 that decide the size of the picture
# Where a frame ends, as arguments of `frames` and `sums`.
FLIPS: List[str] = []
MARKS = ['marks']


def find_ffmpeg(given: Optional[str]) -> str:
    """Returns the path of ffmpeg. Raises ToolError if there is none."""
    path = shutil.which(given or 'ffmpeg')
    if path is None:
        raise ToolError('%s: not a program' % given if given else
                      'ffmpeg is not on the path: install it (apt-get install ffmpeg), or name it with --ffmpeg')
    return path


class Pictures(NamedTuple):
    """Which pictures of `frames` are those of frames: the first `frames`, of these ends, most of them of this size."""
    ends: List[str]
    frames: int
    size: Tuple[int, int]


class Display:
    """The words of GP1 that decide the size of the shown picture, as a capture with a mark for each different setting.
    It has no drawing, so its pictures cost nothing. A snapshot's state comes first."""

    def __init__(self, path: str) -> None:
        self.path, self.file = path, tempfile.TemporaryFile(prefix='psxgpu')
        self.keys: Dict[Tuple[int, ...], int] = {}      # the event of the mark by the latest words of each opcode
        self.latest: Dict[int, int] = {}
        self.event = 0

    def __enter__(self) -> 'Display':
        return self

    def __exit__(self, *_: object) -> None:
        self.file.close()

    def write(self, word: int) -> None:
        """Adds a word."""
        self.file.write(record(GP1, 1, [word]))
        self.event += 1

    def key(self) -> int:
        """Returns the event of the mark that shows the picture as it is now."""
        key = tuple(self.latest.get(opcode, -1) for opcode in SIZING)
        if key not in self.keys:
            self.write(MARK << 24)
            self.keys[key] = self.event
        return self.keys[key]

    def ends(self, opcode: int) -> List[int]:
        """Goes through the recording. Returns the mark of each frame that ends with this opcode, and that of the end."""
        found = []
        with open(self.path, 'rb') as file:
            self.event = past_head(file)
            size = file.tell()
            file.seek(0)
            copy_bytes(file, self.file, size)
            with contextlib.suppress(ValueError):       # what is damaged is refused by the player
                for kind, _, _ in records(file):
                    word = take_words(file, 1)[0] if kind == GP1 else 0
                    number = word >> 24 & 0x3F
                    if kind == GP1 and number in (RESET, *SIZING):
                        self.write(word)
                        self.latest = dict.fromkeys(SIZING, RESET) if number == RESET else {**self.latest, number: word}
                    if kind == GP1 and number == opcode:
                        found.append(self.key())
        return [*found, self.key()]

    def sizes(self, program: str) -> Dict[int, Tuple[int, int]]:
        """Returns the size of the picture by the event of its mark. One without a pixel has none."""
        self.file.write(record(END, 0))
        self.file.flush()
        self.file.seek(0)
        with player.playing(program, ['sums', *MARKS], self.file) as run:
            found = list(map(FRAME.fullmatch, run.out))
            run.expect_whole()
        return {int(line[1]): (int(line[2]), int(line[3])) for line in found if line}


def sizes_of(program: str, path: str, opcode: int) -> List[Tuple[int, int]]:
    """Returns the size of the picture of each frame that shows one. Without packets, what is after the last flip is not
    a frame, and its picture is left out."""
    with Display(path) as display:
        *ends, last = display.ends(opcode)
        sizes = display.sizes(program)
    if opcode == FLIP and last in sizes and Ends(program, path, opcode).has_rest:
        ends.append(last)
    return [sizes[end] for end in ends if end in sizes]


def frames_of(program: str, path: str, by_flips: bool) -> Pictures:
    """Returns the pictures: at marks if the capture has marks, else at flips. Raises ToolError if there is none."""
    for words, opcode in ((FLIPS, FLIP),) if by_flips else ((MARKS, MARK), (FLIPS, FLIP)):
        sizes = sizes_of(program, path, opcode)
        if sizes:
            return Pictures(words, len(sizes), collections.Counter(sizes).most_common(1)[0][0])
    raise ToolError(player.refusal(program, path) or 'it shows no picture')


def pour_pictures(source: IO[bytes], count: int, target: IO[bytes]) -> None:
    """Copies the first PPM pictures of a stream, and reads the others."""
    for number in itertools.count(1):
        head = [source.readline() for _ in range(3)]
        if not head[2]:
            return
        width, height = map(int, head[1].split())
        pixels = source.read(3 * width * height)
        if number <= count:
            for part in (*head, pixels):
                target.write(part)


class Form(NamedTuple):
    """What a film is: its frames a second, its size, and the arguments with which ffmpeg encodes it."""
    rate: int
    size: Tuple[int, int]
    coding: List[str]


def form_of(pictures: Pictures, rate: int, scale: int, is_lossless: bool) -> Form:
    """Returns the form of a film of these pictures. Both sides of a picture of yuv420p are even."""
    width, height = (scale * side if is_lossless else (scale * side + 1) // 2 * 2 for side in pictures.size)
    return Form(rate, (width, height), LOSSLESS if is_lossless else SHOWN)


def encode(ffmpeg: str, source: IO[bytes], pictures: Pictures, form: Form, target: str) -> None:
    """Writes the film of a stream of PPM pictures. Each is scaled without mixing its pixels."""
    words = [ffmpeg, '-y', '-v', 'error', '-f', 'image2pipe', '-c:v', 'ppm', '-framerate', str(form.rate), '-i', '-',
             '-vf', 'scale=%d:%d:flags=neighbor' % form.size, *form.coding, target]
    with scratch() as err:
        with session(words, stdin=subprocess.PIPE, stdout=subprocess.DEVNULL, stderr=err) as child:
            with contextlib.suppress(BrokenPipeError), cast(IO[bytes], child.stdin) as pipe:
                pour_pictures(source, pictures.frames, pipe)
            status = child.wait()
        err.seek(0)
        if status:
            raise ToolError('ffmpeg: ' + (said_last(err.read()) or 'status %d' % status))
