"""Gives crates the libraries that `rt ci` proved on this machine, so that a build does not prove them a second time.

    python3 -m proving.kept CRATE

`rt ci` keeps what it proved by the sum of all that the proof read: the crate's files, the kit, and the libraries below as
they were built. What it leaves in a crate's out/ has no stamp, so other commands of `rt` would build it anew. This takes
each library below CRATE that has no stamp from what is kept, if its sum is the same, and writes its stamp. Then it says
how many it took. Where it can't, it takes none, and they are proved.
"""
import importlib.machinery
import importlib.util
import os
import shutil
import sys
from typing import Any

from proving.plan import ROOT


def load_rt() -> Any:
    """Returns the kit's command `rt` as a module. It loads `rtlib` beside it."""
    place = os.path.realpath(shutil.which('rt') or '')
    loader = importlib.machinery.SourceFileLoader('rt', place)
    place_of = importlib.util.spec_from_loader('rt', loader)
    assert place_of is not None
    found = importlib.util.module_from_spec(place_of)
    loader.exec_module(found)
    return found


def take(rt: Any, top: str) -> int:
    """Takes what is kept of the libraries below a crate, lowest first. Returns how many were taken."""
    rt.Crate.allowed = rt.handles_of(ROOT)
    crates = rt.crates_of(ROOT)
    kept, count = rt.Kept(crates), 0
    below = {it.name for crate in crates if crate.name == top for it in crate.below()}
    libraries = [it for it in crates if it.name in below]
    locks = rt.rtlib.lock(libraries)
    for crate in libraries:
        if not crate.is_built():
            stamp, key = crate.stamp(), kept.key(crate)
            if not os.path.isdir(kept.place(crate, False, key)):
                break
            shutil.rmtree(os.path.join(crate.folder, 'out', 'rlib'), ignore_errors=True)
            if not kept.give(crate, False, key):
                break
            with open(os.path.join(crate.folder, 'out', 'rlib', 'stamp'), 'w', encoding='utf-8') as file:
                file.write(stamp)
            count += 1
        kept.is_built(crate)
    for it in locks:
        os.close(it)
    return count


def main(top: str) -> None:
    """Takes what can be taken, and says what."""
    sys.dont_write_bytecode = True
    try:
        count = take(load_rt(), top)
    except (Exception, SystemExit):     # the kit is another than this one: all is proved
        return
    if count:
        print('%d libraries are those that rt ci proved on this machine.' % count, flush=True)


if __name__ == '__main__':
    main(*sys.argv[1:])
