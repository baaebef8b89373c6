"""The captures of folders, by their names below them."""
import fnmatch
import os
from dataclasses import dataclass
from typing import Dict, Iterable, Iterator, List, Sequence, Tuple

from psxgpu.command import ToolError
from psxgpu.output.folders import is_made_by
from psxgpu.packing import ENDINGS

# Names of captures. Files whose packed form ends in .gz, .xz or .zst are captures, too.
REPORT = 'psxgpu corpus check'       # what wrote a folder of a report, whose captures are not part of the corpus
NAMES = ('*.capture', '*.snapshot', '*.cap', '*.psxgpu')


@dataclass(frozen=True)
class Capture:
    """A capture of a folder: its name below the folder, its path and its bytes."""
    name: str
    path: str
    size: int


def captures_of(places: Iterable[str], names: Sequence[str] = NAMES) -> List[Capture]:
    """Returns the captures of folders, by name: the path below the folder. A place that is a file has its path as
    name."""
    found: Dict[str, Capture] = {}
    for place in places:
        for name, path in files_of(place, names):
            name = name.replace(os.sep, '/')
            if name in found:
                raise ToolError('two captures of the name %s: %s and %s' % (name, found[name].path, path))
            if '\n' in name:
                raise ToolError('%r: a file of sums cannot have a name of two lines' % path)
            found[name] = Capture(name, path, os.path.getsize(path))
    if not found:
        raise ToolError('%s: no capture (%s; also with %s)' % (' '.join(places), ' '.join(names), ' '.join(ENDINGS)))
    return [found[name] for name in sorted(found)]


def files_of(place: str, names: Sequence[str]) -> Iterator[Tuple[str, str]]:
    """Returns names and paths of the files of a folder, or those of a file."""
    if not os.path.isdir(place):
        os.stat(place)
        yield os.path.normpath(place), place
        return
    for folder, folders, files in os.walk(place):
        folders[:] = sorted(name for name in folders if not is_made_by(os.path.join(folder, name), REPORT))
        for file in sorted(files):
            base, ending = os.path.splitext(file)
            if any(fnmatch.fnmatch(file, name) or ending in ENDINGS and fnmatch.fnmatch(base, name) for name in names):
                path = os.path.join(folder, file)
                yield os.path.relpath(path, place), path
