//! The conformance suite in `cargo test`: one test for each rule of the GPU. Its expected values were worked by hand or by
//! a formula. It is safe Rust and needs no library.
//!
//! An emulator's own test is five lines. Its closure gets the events of a test, and returns video memory: 512 rows of 1024
//! cells.
//!
#![cfg_attr(feature = "machine", doc = "```")]
#![cfg_attr(not(feature = "machine"), doc = "```ignore")]
//! # struct MyGpu(psxgpu::Gpu);
//! # impl MyGpu {
//! #     fn new() -> Self { MyGpu(psxgpu::Gpu::new().unwrap()) }
//! #     fn event(&mut self, event: &psxgpu::capture::Event) { self.0.event(event).unwrap(); }
//! #     fn vram(mut self) -> Vec<u16> { self.0.video_memory().unwrap().to_vec() }
//! # }
//! // #[test] fn conformance() {
//! psxgpu::conformance::check(|events| {
//!     let mut gpu = MyGpu::new();
//!     events.iter().for_each(|event| gpu.event(event));
//!     gpu.vram()
//! });
//! // }
//! ```
//!
//! So only the cells are compared ([`Report::in_part`]). A closure that returns an [`Answer`] has the words that were read
//! and the shown picture compared too. An emulator that takes only words at its ports runs [`Suite::by_ports`].
mod judging;
mod packed;
mod suite;

use std::fmt;
use std::panic::{catch_unwind, AssertUnwindSafe};

use crate::capture::Event;
use judging::{failure, judge};

pub use judging::{Answer, Verdict};
pub use suite::{Decides, ExpectedWord, Picture, Shown, Test};

/// Runs all tests, and panics with the rules that do not hold if one failed.
///
/// # Panics
///
/// If a test failed, or none passed.
pub fn check<A: Into<Answer>>(run: impl FnMut(&[Event]) -> A) {
    Suite::new().check(run);
}

/// Returns all tests.
pub fn tests() -> Vec<Test> {
    packed::unpacked().1
}

/// Returns the number of the suite, which is raised when tests are added or withdrawn.
pub fn version() -> u16 {
    packed::unpacked().0
}

/// Tests to run.
///
/// ```
/// # fn draw(_: &[psxgpu::capture::Event]) -> Vec<u16> { vec![0; 1024 * 512] }
/// use psxgpu::conformance::Suite;
///
/// let report = Suite::new().only(&["fills", "copies/overlap-right"]).by_ports().run(draw);
/// assert!(!report.is_success()); // `draw` draws nothing
/// assert!(report.to_string().contains("fills/size-and-color"));
/// ```
#[derive(Clone, Debug)]
pub struct Suite {
    tests: Vec<Test>,
    is_by_ports: bool,
    is_strict: bool,
}

impl Suite {
    /// Returns all tests.
    pub fn new() -> Self {
        Suite { tests: tests(), is_by_ports: false, is_strict: false }
    }

    /// Keeps the tests of these chapters and of these names.
    ///
    /// # Panics
    ///
    /// If no test has such a name.
    pub fn only(mut self, names: &[&str]) -> Self {
        self.expect_known(names);
        self.tests.retain(|test| is_named(test, names));
        self
    }

    /// Leaves out the tests of these chapters and of these names: those that are known to fail.
    ///
    /// # Panics
    ///
    /// If no test has such a name.
    pub fn without(mut self, names: &[&str]) -> Self {
        self.expect_known(names);
        self.tests.retain(|test| !is_named(test, names));
        self
    }

    /// Gives events of the ports alone: what DMA moves is written to GP0, or read.
    pub fn by_ports(mut self) -> Self {
        self.is_by_ports = true;
        self
    }

    /// Fails also where a rule of this project decides.
    pub fn strict(mut self) -> Self {
        self.is_strict = true;
        self
    }

    /// Returns the tests.
    pub fn tests(&self) -> &[Test] {
        &self.tests
    }

    /// Runs the tests, and panics with the report if it is no success. Else prints it.
    ///
    /// # Panics
    ///
    /// If a test failed, or none passed.
    pub fn check<A: Into<Answer>>(&self, run: impl FnMut(&[Event]) -> A) {
        let report = self.run(run);
        assert!(report.is_success(), "{}", report);
        println!("{}", report);
    }

    /// Runs the tests with a closure that gets their events.
    pub fn run<A: Into<Answer>>(&self, mut run: impl FnMut(&[Event]) -> A) -> Report {
        self.run_each(|_, events| run(events))
    }

    /// Runs the tests with a closure that gets each test and its events. [`Test::rows`] says how tall video memory has to
    /// be. A panic of the closure is a failure of the test.
    pub fn run_each<A: Into<Answer>>(&self, mut run: impl FnMut(&Test, &[Event]) -> A) -> Report {
        let mut report = Report { is_strict: self.is_strict, ..Report::default() };
        for test in &self.tests {
            let events = if self.is_by_ports { test.port_events() } else { test.events() };
            match catch_unwind(AssertUnwindSafe(|| run(test, &events).into())) {
                Ok(answer) => report.add(test, &answer),
                Err(_) => report.put(test, failure(test), "the emulator panicked".to_owned()),
            }
        }
        report
    }

    fn expect_known(&self, names: &[&str]) {
        for name in names {
            assert!(
                self.tests.iter().any(|test| is_named(test, &[name])),
                "{}: no chapter or test has this name",
                name
            );
        }
    }
}

impl Default for Suite {
    fn default() -> Self {
        Suite::new()
    }
}

fn is_named(test: &Test, names: &[&str]) -> bool {
    names.iter().any(|name| *name == test.chapter() || *name == test.name())
}

/// What was found. Its text has each test that did not pass, with its rule, and a line of numbers.
#[derive(Clone, Debug, Default)]
pub struct Report {
    verdicts: Vec<(String, Verdict)>,
    lines: Vec<String>,
    /// Tests whose words or picture the answer did not have.
    in_part: usize,
    is_strict: bool,
}

impl Report {
    /// Returns whether tests passed and none failed. If the suite is strict, none differs either.
    pub fn is_success(&self) -> bool {
        let differs = if self.is_strict { self.count(Verdict::Differs) } else { 0 };
        self.count(Verdict::Passed) > 0 && self.count(Verdict::Failed) + differs == 0
    }

    /// Returns the number of tests that ended so.
    pub fn count(&self, verdict: Verdict) -> usize {
        self.verdicts.iter().filter(|(_, one)| *one == verdict).count()
    }

    /// Returns the number of tests of which only the cells were compared, though they expect words or a picture too.
    pub fn in_part(&self) -> usize {
        self.in_part
    }

    /// Returns each test by name, and how it ended.
    pub fn verdicts(&self) -> impl Iterator<Item = (&str, Verdict)> + '_ {
        self.verdicts.iter().map(|(name, verdict)| (name.as_str(), *verdict))
    }

    fn add(&mut self, test: &Test, answer: &Answer) {
        let (verdict, reason) = judge(test, answer);
        let lacks_words = !test.words().is_empty() && answer.words.is_none();
        let lacks_picture = *test.picture() != Shown::NotAsked && answer.picture == Shown::NotAsked;
        if verdict != Verdict::NotTaken && (lacks_words || lacks_picture) {
            self.in_part += 1;
        }
        self.put(test, verdict, reason);
    }

    fn put(&mut self, test: &Test, verdict: Verdict, reason: String) {
        if matches!(verdict, Verdict::Failed | Verdict::Differs) {
            let kind = if verdict == Verdict::Failed { "failed" } else { "differs" };
            self.lines.push(format!("{:<7} {}: {}\n        {}", kind, test.name(), test.rule(), reason));
        }
        self.verdicts.push((test.name().to_owned(), verdict));
    }
}

impl fmt::Display for Report {
    fn fmt(&self, out: &mut fmt::Formatter<'_>) -> fmt::Result {
        self.lines.iter().try_for_each(|line| writeln!(out, "{}", line))?;
        let names = [
            (Verdict::Passed, "passed"),
            (Verdict::Failed, "failed"),
            (Verdict::Differs, "differ"),
            (Verdict::NotTaken, "not taken: they need 1024 rows"),
        ];
        write!(out, "{} tests", self.verdicts.len())?;
        for (verdict, name) in names {
            match self.count(verdict) {
                0 => {}
                count => write!(out, ", {} {}", count, name)?,
            }
        }
        if self.in_part > 0 {
            write!(out, "; of {} only the cells were compared, not words or picture", self.in_part)?;
        }
        Ok(())
    }
}
