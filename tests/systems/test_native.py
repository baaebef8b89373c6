"""This machine's program beside a peer that waits for its output.

The same test is run for WASI and Windows, among others that compare their program with this one."""
import unittest
from typing import Optional

from tests.systems import same_runs


class Native(same_runs.Same):
    player = same_runs.NATIVE


def load_tests(loader: unittest.TestLoader, tests: unittest.TestSuite, pattern: Optional[str]) -> unittest.TestSuite:
    """Returns the test of the peer alone: the others would compare this program with itself."""
    return unittest.TestSuite([Native('test_co_process')])
