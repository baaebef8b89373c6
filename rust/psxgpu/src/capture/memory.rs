//! Main memory as a player of a capture will have it, so that a recording has each word once.
use super::record::{Start, RAM_WORDS};

/// A range of words of main memory, which wraps at the end.
#[derive(Clone, Copy)]
pub(super) struct Range {
    pub first: u32,
    pub count: u32,
}

impl Range {
    /// Returns the words that blocks occupy, or `None` if there are more than main memory has.
    fn of_blocks(start: Start) -> Option<Range> {
        let is_one = start.chcr >> 9 & 1 == 0;
        let is_backward = start.chcr >> 1 & 1 == 1;
        let blocks = if is_one { 1 } else { count_of(start.bcr >> 16) };
        let all = u64::from(count_of(start.bcr & 0xFFFF)) * u64::from(blocks);
        if all > u64::from(RAM_WORDS) {
            return None;
        }
        let count = all as u32;
        let below = if is_backward { count - 1 } else { 0 };
        Some(Range { first: (start.madr / 4).wrapping_sub(below) % RAM_WORDS, count })
    }

    fn contains(self, word: u32) -> bool {
        word.wrapping_sub(self.first) % RAM_WORDS < self.count
    }

    /// Returns the words in order.
    pub fn words(self) -> impl Iterator<Item = u32> {
        (0..self.count).map(move |at| (self.first + at) % RAM_WORDS)
    }
}

/// What a start of channel 2 does with main memory.
pub(super) enum Use {
    /// It reads blocks.
    Reads(Range),
    /// It reads a list, which begins at this address.
    ReadsList(u32),
    /// It writes blocks.
    Writes(Range),
}

impl Use {
    /// Returns what a start does, or `None` if a player would refuse it.
    pub fn of(start: Start) -> Option<Use> {
        let is_from_memory = start.chcr & 1 == 1;
        match start.chcr >> 9 & 3 {
            3 => None,
            2 if is_from_memory => Some(Use::ReadsList(start.madr)),
            2 => None,
            _ if is_from_memory => Range::of_blocks(start).map(Use::Reads),
            _ => Range::of_blocks(start).map(Use::Writes),
        }
    }
}

/// What a player knows: the words of main memory, and which of them are known.
pub(super) struct Memory {
    known: Vec<u32>,
    stale: Vec<bool>,
    /// What a transfer in turns may still write.
    in_turns: Option<Range>,
}

impl Memory {
    /// Makes main memory as it is at first: all words are 0.
    pub fn new() -> Self {
        Memory { known: vec![0; RAM_WORDS as usize], stale: vec![false; RAM_WORDS as usize], in_turns: None }
    }

    /// Returns whether a player has this value in a word.
    pub fn has(&self, word: u32, value: u32) -> bool {
        let at = word as usize;
        !self.stale[at] && self.known[at] == value && !self.in_turns.map_or(false, |range| range.contains(word))
    }

    /// Sets a word that the recording has.
    pub fn set(&mut self, word: u32, value: u32) {
        self.known[word as usize] = value;
        self.stale[word as usize] = false;
    }

    /// Does what channel 6 does: entries downward, each the address of the one below it.
    pub fn clear_table(&mut self, start: Start) {
        let mut word = start.madr / 4 % RAM_WORDS;
        for left in (1..=count_of(start.bcr & 0xFFFF)).rev() {
            let below = word.wrapping_sub(1) % RAM_WORDS;
            self.set(word, if left == 1 { 0xFF_FFFF } else { 4 * below });
            word = below;
        }
    }

    /// Forgets words that a transfer writes.
    pub fn forget(&mut self, range: Range) {
        for word in range.words() {
            self.stale[word as usize] = true;
        }
    }

    /// Ends the transfer in turns, if one runs. `next`: what the next one may write.
    pub fn replace_turns(&mut self, next: Option<Range>) {
        if let Some(range) = std::mem::replace(&mut self.in_turns, next) {
            self.forget(range);
        }
    }
}

/// Returns what a field of BCR counts.
fn count_of(field: u32) -> u32 {
    if field == 0 {
        0x1_0000
    } else {
        field
    }
}
