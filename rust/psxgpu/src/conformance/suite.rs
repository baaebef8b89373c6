//! A test of the suite: what the machine is given, and what has to come out.
use crate::capture::{Event, Reader};

pub(super) const COLUMNS: usize = 1024;

/// Who decides a test.
#[derive(Clone, Copy, Debug, PartialEq, Eq, Hash)]
pub enum Decides {
    /// The document psx-spx.
    PsxSpx,
    /// A rule of this project: an emulator that differs may be right.
    OwnRule,
}

/// A word that has to be read, in the bits of the mask.
#[derive(Clone, Copy, Debug, PartialEq, Eq, Hash)]
pub struct ExpectedWord {
    /// The word.
    pub word: u32,
    /// The bits that matter.
    pub mask: u32,
}

/// A picture.
#[derive(Clone, Debug, PartialEq, Eq)]
pub struct Picture {
    /// Its width in pixels.
    pub width: u16,
    /// Its height in pixels.
    pub height: u16,
    /// Three bytes per pixel, row by row: red, green, blue.
    pub pixels: Vec<u8>,
}

/// What is shown after the last event.
#[derive(Clone, Debug, PartialEq, Eq)]
pub enum Shown {
    /// Nobody asks, or the emulator does not tell.
    NotAsked,
    /// No picture: its width or its height is 0.
    Nothing,
    /// This picture.
    Picture(Picture),
}

/// Contiguous cells of a row.
#[derive(Clone, Debug)]
pub(super) struct Run {
    pub x: u16,
    pub y: u16,
    pub cells: Vec<u16>,
}

/// A test: one rule of the GPU.
///
/// ```
/// let test = psxgpu::conformance::tests().into_iter().find(|test| test.name() == "fills/x-rounded-down").unwrap();
/// assert_eq!(test.chapter(), "fills");
/// assert!(test.rule().ends_with('.'));
/// assert_eq!(test.cells().len(), 1024 * 512);
/// assert!(!test.events().is_empty());
/// ```
#[derive(Clone, Debug)]
pub struct Test {
    pub(super) name: String,
    pub(super) rule: String,
    pub(super) section: String,
    pub(super) decides: Decides,
    pub(super) needs_dma: bool,
    pub(super) is_tall: bool,
    pub(super) capture: Vec<u8>,
    /// Empty if the capture is flat.
    pub(super) flat: Vec<u8>,
    pub(super) cells: Vec<Run>,
    pub(super) ignored: Vec<(u16, u16, u16)>,
    pub(super) words: Vec<ExpectedWord>,
    pub(super) picture: Shown,
}

impl Test {
    /// Returns the chapter and the name, as "fills/x-rounded-down".
    pub fn name(&self) -> &str {
        &self.name
    }

    /// Returns the chapter.
    pub fn chapter(&self) -> &str {
        self.name.split('/').next().unwrap_or("")
    }

    /// Returns the rule in one sentence.
    pub fn rule(&self) -> &str {
        &self.rule
    }

    /// Returns the section of psx-spx.
    pub fn section(&self) -> &str {
        &self.section
    }

    /// Returns who decides.
    pub fn decides(&self) -> Decides {
        self.decides
    }

    /// Returns whether its events have main memory and DMA.
    pub fn needs_dma(&self) -> bool {
        self.needs_dma
    }

    /// Returns the rows of video memory: 512, or 1024 for a test of the tall profile.
    pub fn rows(&self) -> usize {
        if self.is_tall {
            1024
        } else {
            512
        }
    }

    /// Returns the bytes of its capture, as a file for a player.
    pub fn capture(&self) -> &[u8] {
        &self.capture
    }

    /// Returns the events.
    pub fn events(&self) -> Vec<Event> {
        events_of(&self.capture)
    }

    /// Returns the events as words to and reads from the ports alone: what DMA moves is written to GP0, or read.
    pub fn port_events(&self) -> Vec<Event> {
        events_of(if self.flat.is_empty() { &self.capture } else { &self.flat })
    }

    /// Returns the cells that video memory has to have, row by row.
    pub fn cells(&self) -> Vec<u16> {
        let mut cells = vec![0; COLUMNS * self.rows()];
        for run in &self.cells {
            let at = COLUMNS * usize::from(run.y) + usize::from(run.x);
            cells[at..at + run.cells.len()].copy_from_slice(&run.cells);
        }
        cells
    }

    /// Returns whether the value of a cell does not matter.
    pub fn is_ignored(&self, x: usize, y: usize) -> bool {
        self.ignored.iter().any(|&(left, row, count)| {
            usize::from(row) == y && (usize::from(left)..usize::from(left) + usize::from(count)).contains(&x)
        })
    }

    /// Returns the words that each Read and each Stat has to read, in order.
    pub fn words(&self) -> &[ExpectedWord] {
        &self.words
    }

    /// Returns what has to be shown after the last event.
    pub fn picture(&self) -> &Shown {
        &self.picture
    }
}

fn events_of(capture: &[u8]) -> Vec<Event> {
    let records = Reader::new(capture).filter_map(Result::ok);
    records.flat_map(|record| record.events().collect::<Vec<_>>()).collect()
}
