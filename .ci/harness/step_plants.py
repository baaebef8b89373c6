"""What the check of steps is tried on: files that make a counter, and changes by which a visit would not be counted."""
from typing import List, Tuple

MAIN = 'psxgpu_tool/src/main.rt'
COUNTER = 'vram_store/src/steps.rt'
OWN = 'pub fn own<L: Ledger>() {\n    let steps = Steps::<L>::new(Blank::new(1));\n}\n'
# Files, each alone in its crate: (path, text, whether it makes a counter that it may not make).
PLANTED: List[Tuple[str, str, bool]] = [
    ('vram_copy/src/fills.rt', 'fn f() {\n    let mut own = Steps::<L>::new(blank);\n}\n', True),
    ('vram_copy/src/fills.rt', 'fn f() {\n    let own = <Steps<L>>::new(blank);\n}\n', True),
    ('vram_copy/src/fills.rt', 'fn f() {\n    let slashes = "//"; let own = Blank::new(1);\n}\n', True),
    ('vram_copy/src/fills.rt', '/* #[cfg(test)]\nmod tests { */\nfn f() {\n    Blank::new(1);\n}\n', True),
    ('psxgpu_tool/src/run.rt', 'use std::sync::ledger::Blank as Page;\n', True),
    ('psxgpu_tool/src/run.rt', 'use std::sync::ledger::*;\n', True),
    ('psxgpu_tool/src/run.rt', 'use std::sync::ledger::{self as book, Ledger};\n', True),
    ('psxgpu_tool/src/run.rt', 'use vram_store::Steps as Counter;\n', True),
    ('psxgpu_tool/src/tests/cut.rt', 'use std::sync::ledger::Blank;\n', True),
    ('psxgpu_tool/src/attests.rt', 'use std::sync::ledger::Blank;\n', True),
    ('vram_copy/src/lib.rt', '// Blank\n#[cfg(test)]\nmod tests {\n    use std::sync::ledger::Blank;\n}\n', False),
    ('vram_copy/src/lib.rt', '#[cfg(test)]\nmod tests {\n}\nfn f() { Blank::new(1); }\n', True),
    ('vram_copy/src/lib.rt', '#[cfg(not(test))]\nmod tests {\n    use std::sync::ledger::Blank;\n}\n', True),
    ('vram_copy/src/fills.rt', 'use std::sync::ledger::Ledger;\nfn f<L: Ledger>(steps: &mut Steps<L>) {}\n', False),
]
# Changes of the repository's own files: (what it is, path, the text that is replaced, the new text). Where the replaced
# text is empty, the new one is added at the end.
EVASIONS: List[Tuple[str, str, str, str]] = [
    ('tests that are part of the program', MAIN, '#[cfg(test)]\nmod tests;', 'mod tests;'),
    ('a crate of tests that is part of others', 'crate_tests/src/lib.rt', '#[cfg(test)]\nmod tests;', 'pub mod tests;'),
    ('tests that the program reads too', 'psxgpu_tool/src/run.rt', '', '#[path = "tests.rt"]\nmod own;\n'),
    ('tests that the program reads beside', MAIN, '#[cfg(test)]\nmod tests;',
     '#[cfg(test)]\nmod tests;\n#[cfg(not(test))]\nmod tests;'),
    ('a new file of tests without the mark', 'vram_copy/src/lib.rt', '', 'mod tests;\n'),
    ('a helper of main.rt', MAIN, '', OWN),
    ('a helper of main.rt with the same blank', MAIN, 'let mut steps = Steps::<L>::new(blank);',
     'let other = Blank::new(1); let mut steps = Steps::<L>::new(blank);'),
    ('another name in main.rt', MAIN, 'use std::sync::ledger::{Blank, Ledger};',
     'use std::sync::ledger::{Blank as Page, Ledger};'),
    ('all names in main.rt', MAIN, '', 'use std::sync::ledger::*;\n'),
    ('a type for the counter in main.rt', MAIN, '', 'type Counter<L> = Steps<L>;\n'),
    ('a maker outside of main', MAIN, '    ExitCode::from(run_over::<Brand>(&rt, Blank::new(1)))',
     '    ExitCode::from(run_over::<Brand>(&rt, blank()))\n}\n\nfn blank() -> Blank {\n    Blank::new(1)'),
    ('a maker in the counter itself', COUNTER, '', 'pub fn fresh() -> Blank {\n    Blank::new(1)\n}\n'),
    ('a call that takes steps back', COUNTER, 'pub(crate) fn tick',
     'pub(crate) fn back(&mut self) {}\n    pub(crate) fn tick'),
    ('an accessor that does not count', 'vram_store/src/vram.rt', '    pub fn put<',
     '    pub fn peek(&self, at: usize) -> u16 {\n        self.cells[at]\n    }\n\n    pub fn put<'),
    ('an accessor in another file', 'vram_store/src/mask.rt', '',
     'impl crate::Vram {\n    pub fn peek(&self) -> &[u16] {\n        &self.cells\n    }\n}\n'),
    ('an accessor that takes the memory apart', 'vram_store/src/mask.rt', '',
     'pub fn peek(vram: &crate::Vram) -> u16 {\n    let crate::Vram { cells: all } = vram;\n    all[0]\n}\n'),
    ('an accessor by Self', 'vram_store/src/gather.rt', '',
     'impl Vram {\n    pub fn peek(&self) -> u16 {\n        let Self { cells } = self;\n        cells[0]\n    }\n}\n'),
    ('an accessor by a macro', 'vram_store/src/mask.rt', '',
     'macro_rules! field {\n    ($of:expr, $name:ident) => {\n        $of.$name\n    };\n}\n'),
    ('an accessor by a macro of another crate', 'px_num/src/lib.rt', '',
     '#[macro_export]\nmacro_rules! field {\n    ($of:expr, $name:ident) => {\n        $of.$name\n    };\n}\n'),
    ('an accessor by another name of the type', 'vram_store/src/mask.rt', '',
     'use crate::Vram as Other;\npub fn peek(of: &Other) -> u16 {\n    let Other { cells } = of;\n    cells[0]\n}\n'),
    ('an accessor by the pattern of a loop', 'vram_store/src/gather.rt', '',
     'impl Vram {\n    pub fn peek(&self) -> u16 {\n        for Vram { cells } in [self] {\n'
     '            return cells[0];\n        }\n        0\n    }\n}\n'),
    ('an accessor that is a constant', 'vram_store/src/mask.rt', '',
     'pub const PEEK: fn(&crate::Vram) -> u16 = |vram| vram.cells[0];\n'),
    ('a second accessor of a name that need not count', 'vram_store/src/vram.rt', '',
     'impl Peek for Vram {\n    fn height(&self) -> &[u16] {\n        &self.cells\n    }\n}\n'),
    ('an access that is counted no more', 'vram_store/src/vram.rt', 'steps.tick();\n        self.cells[1024',
     'self.cells[1024'),
    ('gathered lanes that are counted no more', 'vram_store/src/gather.rt', 'steps.add(n);\n        cells_at',
     'cells_at'),
    ('a run that is counted no more', 'vram_store/src/runs.rt', 'steps.add(copy_steps(n));\n        copy_cells',
     'copy_cells'),
    ('a run that is counted as one access', 'vram_store/src/runs.rt', 'steps.add(copy_steps(n));', 'steps.tick();'),
    ('an access that is counted by its arguments', 'vram_store/src/vram.rt', 'steps.tick();\n        self.cells[1024',
     'steps.add(n);\n        self.cells[1024'),
    ('an access that may end before it is counted', 'vram_store/src/vram.rt', 'steps.tick();\n        self.cells[1024',
     'if x == 0 {\n            return self.cells[0];\n        }\n        steps.tick();\n        self.cells[1024'),
    ('a counter that can be cloned', COUNTER, '#[derive(Drop)]', '#[derive(Clone, Drop)]'),
    ('a counter with a conversion', COUNTER, '', 'impl<L: Ledger> From<u8> for Steps<L> {}\n'),
    ('a public field', 'vram_store/src/vram.rt', 'pub(crate) cells', 'pub cells'),
    ('a memory that can be cloned', 'vram_store/src/vram.rt', '#[derive(Drop)]\npub struct Vram',
     '#[derive(Clone, Drop)]\npub struct Vram'),
]
# Each of these files is written beside a change, since a module wants one.
BESIDE = {'vram_copy/src/tests.rt': OWN}
