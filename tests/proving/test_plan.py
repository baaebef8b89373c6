"""Tests of proving/plan.py: which crates are begun, and by how many processors."""
import unittest
from typing import Dict, List, Optional
from unittest import mock

from proving import plan

NEEDS: Dict[str, List[str]] = {'low': [], 'beside': [], 'middle': ['low'], 'left': ['middle'], 'right': ['middle']}
SECONDS = {'low': 10.0, 'beside': 30.0, 'middle': 100.0, 'left': 20.0, 'right': 90.0}
LEFT = ['low', 'beside', 'middle', 'left', 'right']


class PlanTest(unittest.TestCase):
    """A machine of four processors and much memory."""

    def plan(self, jobs: Optional[int] = None, memory: int = 64_000_000_000) -> plan.Plan:
        """Returns a plan for all crates."""
        with mock.patch.object(plan, 'measured', lambda: SECONDS), \
                mock.patch.object(plan, 'free_memory', lambda: memory), \
                mock.patch.object(plan, 'count_lines', lambda name: 1000), \
                mock.patch('os.sched_getaffinity', lambda process: {0, 1, 2, 3}):
            return plan.Plan(NEEDS, LEFT, jobs)

    def test_the_longest_chain_first(self) -> None:
        """low has the longest chain above it. It gets all processors but one, which beside gets."""
        found = self.plan()
        self.assertEqual([found.begin(), found.begin(), found.begin()], [('low', 3), ('beside', 1), None])

    def test_the_only_one_of_a_long_chain(self) -> None:
        """Nothing but middle can be begun, and all others wait for it: it gets the processors of beside too."""
        found = self.plan()
        found.begin()
        found.begin()
        found.end('low')
        self.assertEqual(found.begin(), ('middle', 4))
        self.assertIsNone(found.begin())
        found.end('beside')
        self.assertIsNone(found.begin())
        found.end('middle')
        self.assertEqual([found.begin(), found.begin()], [('right', 3), ('left', 1)])

    def test_as_many_as_were_asked(self) -> None:
        """JOBS crates at a time, each by one processor."""
        found = self.plan(jobs=2)
        self.assertEqual([found.begin(), found.begin()], [('low', 1), ('beside', 1)])
        found.end('low')
        self.assertEqual(found.begin(), ('middle', 1))

    def test_no_more_than_memory_holds(self) -> None:
        """A crate takes 1 GB with one processor, and 0.6 GB for each further one. 85 of 100 bytes may be taken."""
        found = self.plan(memory=2_000_000_000)
        self.assertEqual(found.begin(), ('low', 2))
        self.assertIsNone(found.begin())
        found.end('low')
        self.assertEqual(found.begin(), ('middle', 2))


if __name__ == '__main__':
    unittest.main()
