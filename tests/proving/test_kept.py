"""Tests of the libraries that a build takes from those of `rt ci`. A module of ours stands in for the kit's `rt`."""
import os
import tempfile
import types
import unittest
from typing import Dict, List

from proving import kept


def text_of(*path: str) -> str:
    """Returns what a file has, or nothing where there is none."""
    if not os.path.exists(os.path.join(*path)):
        return ''
    with open(os.path.join(*path), encoding='utf-8') as file:
        return file.read()


class Crate:
    """A crate of the stand-in. Its stamp is its text."""
    allowed: object = None

    def __init__(self, folder: str, name: str, below: 'List[Crate]') -> None:
        self.folder, self.name, self.needs = os.path.join(folder, name), name, below

    def below(self) -> 'List[Crate]':
        """Returns the crates below this one."""
        return self.needs

    def stamp(self) -> str:
        """Returns the stamp."""
        return 'stamp of ' + self.name

    def is_built(self) -> bool:
        """Returns whether the stamp of this text is there."""
        return text_of(self.folder, 'out', 'rlib', 'stamp') == self.stamp()


class Kept:
    """What the stand-in keeps: folders KEY with a file `library`."""

    def __init__(self, store: str) -> None:
        self.store, self.noted = store, []      # type: str, List[str]

    def key(self, crate: Crate) -> str:
        """Returns a sum of a crate and of those below as they are built."""
        return '-'.join([crate.name, *self.noted])

    def place(self, crate: Crate, tests: bool, key: str) -> str:
        """Returns where it is kept."""
        return os.path.join(self.store, key)

    def give(self, crate: Crate, tests: bool, key: str) -> bool:
        """Gives a crate its library. The file must not be there, as with the kit's."""
        to = os.path.join(crate.folder, 'out', 'rlib', 'library')
        os.makedirs(os.path.dirname(to), exist_ok=True)
        os.link(os.path.join(self.store, key, 'library'), to)
        return True

    def is_built(self, crate: Crate) -> None:
        """Notes what is built."""
        self.noted.append(text_of(crate.folder, 'out', 'rlib', 'library'))


class Taking(unittest.TestCase):
    """The crate top stands on low and high, and high on low."""

    def setUp(self) -> None:
        place = tempfile.TemporaryDirectory()
        self.addCleanup(place.cleanup)
        self.store, self.folder = os.path.join(place.name, 'store'), os.path.join(place.name, 'crates')
        low = Crate(self.folder, 'low', [])
        high = Crate(self.folder, 'high', [low])
        crates = [low, high, Crate(self.folder, 'top', [low, high]), Crate(self.folder, 'other', [])]
        self.rt = types.SimpleNamespace(
            Crate=Crate, handles_of=lambda root: (), crates_of=lambda root: crates, Kept=lambda those: Kept(self.store),
            rtlib=types.SimpleNamespace(lock=lambda those: []))

    def keep(self, entries: Dict[str, str]) -> None:
        """Keeps libraries, each by its key."""
        for key, text in entries.items():
            os.makedirs(os.path.join(self.store, key))
            with open(os.path.join(self.store, key, 'library'), 'w', encoding='utf-8') as file:
                file.write(text)

    def built(self, crate: str, library: str, stamp: bool = True) -> None:
        """Puts a library into the out/ of a crate."""
        folder = os.path.join(self.folder, crate, 'out', 'rlib')
        os.makedirs(folder)
        for name, text in [('library', library)] + [('stamp', 'stamp of ' + crate)] * stamp:
            with open(os.path.join(folder, name), 'w', encoding='utf-8') as file:
                file.write(text)

    def library(self, crate: str) -> str:
        """Returns the library of a crate with its stamp, or nothing."""
        return ', '.join(text_of(self.folder, crate, 'out', 'rlib', name) for name in ('library', 'stamp'))

    def test_both_are_taken(self) -> None:
        self.keep({'low': 'L', 'high-L': 'H', 'other': 'O'})
        self.built('low', 'without a stamp', stamp=False)
        self.assertEqual(kept.take(self.rt, 'top'), 2)
        self.assertEqual(self.library('low'), 'L, stamp of low')
        self.assertEqual(self.library('high'), 'H, stamp of high')
        self.assertEqual(self.library('other'), ', ')

    def test_what_is_built_stays(self) -> None:
        self.keep({'low': 'L', 'high-L': 'H', 'high-mine': 'over mine'})
        self.built('low', 'mine')
        self.assertEqual(kept.take(self.rt, 'top'), 1)
        self.assertEqual(self.library('low'), 'mine, stamp of low')
        self.assertEqual(self.library('high'), 'over mine, stamp of high')

    def test_over_another_library_nothing_is_taken(self) -> None:
        self.keep({'low': 'L', 'high-L': 'H'})
        self.built('low', 'mine')
        self.assertEqual(kept.take(self.rt, 'top'), 0)
        self.assertEqual(self.library('high'), ', ')

    def test_without_the_lowest_nothing_is_taken(self) -> None:
        self.keep({'high-L': 'H'})
        self.assertEqual(kept.take(self.rt, 'top'), 0)


if __name__ == '__main__':
    unittest.main()
