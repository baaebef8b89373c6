"""The library passes the conformance suite in this process, after `make lib`"""
import unittest

from psxgpu.commands.conform import every_test
from psxgpu.conformance.judging import PASSED, Judge
from psxgpu.players.named import LibraryPlayer, player_of
from tests.library.support import needs_library

setUpModule = needs_library


class Suite(unittest.TestCase):
    def test_every_test_passes(self):
        judge = Judge(LibraryPlayer('the library'))
        verdicts = [judge.judge(test) for test in every_test()]
        self.assertEqual([(verdict.test.full_name, verdict.reason) for verdict in verdicts if verdict.kind != PASSED], [])

    def test_the_program_is_played_by_the_library(self):
        """`psxgpu conform psxgpu_tool` starts no process where the library is."""
        self.assertIsInstance(player_of('psxgpu_tool'), LibraryPlayer)
