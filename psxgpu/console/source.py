"""A capture, and psxgpu_tool for what it does."""
import os
import subprocess
import tempfile
from typing import NamedTuple

from psxgpu.command import ToolError
from psxgpu.output import writing
from psxgpu.players import player
from psxgpu.stream import Stream


class Source(NamedTuple):
    """A capture: the built psxgpu_tool, the file, and how the file is called in messages."""
    tool: str
    path: str
    name: str

    def version(self) -> int:
        """Returns the version of the capture. ToolError if it is none."""
        with open(self.path, 'rb') as file:
            return Stream(file, self.name).version

    def play(self, path: str, *words: str) -> None:
        """Writes into a file what a command of psxgpu_tool writes. ToolError if it refuses the capture."""
        with open(self.path, 'rb') as source, writing(path) as target:
            done = subprocess.run([self.tool, *words], stdin=source, stdout=target, stderr=subprocess.PIPE)
        if done.returncode:
            raise ToolError('%s: %s' % (self.name, player.failure(done.returncode, done.stderr)))

    def answer(self, *words: str) -> bytes:
        """Returns what a command of psxgpu_tool writes."""
        with tempfile.TemporaryDirectory(prefix='psxgpu') as folder:
            path = os.path.join(folder, 'answer')
            self.play(path, *words)
            with open(path, 'rb') as file:
                return file.read()
