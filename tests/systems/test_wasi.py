"""The program as a WASI command: names, streams, terminals. PLAYER=psxgpu_tool python3 -m unittest tests.systems.test_wasi

Each run of systems/players/wasi (psxgpu_tool.wasm by node) is compared with the same run of this machine's program."""
import os
import unittest

from tests.systems import same_runs

BUILT = os.path.join(same_runs.ROOT, 'out', 'wasi', 'psxgpu_tool.wasm')


@unittest.skipUnless(os.path.exists(BUILT), 'not built: make wasi')
class Wasi(same_runs.Same):
    player = os.path.join(same_runs.ROOT, 'systems', 'players', 'wasi')
