//! What a capture has: events, and the records that contain them.

/// The most bytes of a capture that a player accepts: 1 GB.
pub const CAPTURE_MOST: u64 = 1 << 30;
/// The bytes of main memory: 2 MB.
pub const RAM_BYTES: u32 = 0x20_0000;

/// The words of main memory.
pub(crate) const RAM_WORDS: u32 = RAM_BYTES / 4;
/// The most reads, turns or skips of one record.
pub(crate) const MOST_READS: u32 = 262_144;

/// The kinds of records, as their tags have them.
pub(crate) mod kind {
    pub const END: u32 = 0;
    pub const RAM: u32 = 1;
    pub const GP0: u32 = 2;
    pub const GP1: u32 = 3;
    pub const READ: u32 = 4;
    pub const STAT: u32 = 5;
    pub const DMA: u32 = 6;
    pub const BEGIN: u32 = 7;
    pub const TURN: u32 = 8;
    pub const SKIP: u32 = 9;
}

/// The three registers of a DMA channel, with which a transfer starts.
#[derive(Clone, Copy, Debug, PartialEq, Eq, Hash)]
pub struct Start {
    /// MADR: the address in main memory.
    pub madr: u32,
    /// BCR: words of a block in bits 0 to 15, blocks in bits 16 to 31.
    pub bcr: u32,
    /// CHCR: direction, step, mode and the start bit.
    pub chcr: u32,
}

/// One event: the smallest step of a capture.
#[derive(Clone, Copy, Debug, PartialEq, Eq, Hash)]
pub enum Event {
    /// A word is written to main memory.
    Ram {
        /// The byte address, a multiple of 4 below 200000h.
        address: u32,
        /// The word.
        word: u32,
    },
    /// A word is written to port GP0 (1F801810h).
    Gp0(u32),
    /// A word is written to port GP1 (1F801814h).
    Gp1(u32),
    /// The data port (1F801810h) is read.
    Read,
    /// The status word (1F801814h) is read.
    Stat,
    /// A DMA channel starts and moves all words.
    Dma {
        /// 2 (GPU) or 6 (ordering table).
        channel: u32,
        /// Its registers.
        start: Start,
    },
    /// Channel 2 starts and moves nothing before the first turn.
    Begin(Start),
    /// The running transfer moves its next block, or the words of its next node.
    Turn,
    /// The data port is read, and `play` does not print the word.
    Skip,
}

/// A record of a capture: one event or several.
#[derive(Clone, Debug, PartialEq, Eq, Hash)]
pub enum Record {
    /// Words of main memory.
    Ram {
        /// The byte address of the first word.
        address: u32,
        /// The words.
        words: Vec<u32>,
    },
    /// Words for port GP0.
    Gp0(Vec<u32>),
    /// A word for port GP1.
    Gp1(u32),
    /// The number of reads of the data port.
    Read(u32),
    /// A read of the status word.
    Stat,
    /// A start of a DMA channel that moves all words.
    Dma {
        /// 2 (GPU) or 6 (ordering table).
        channel: u32,
        /// Its registers.
        start: Start,
    },
    /// A start of channel 2 that moves nothing before the first turn.
    Begin(Start),
    /// The number of turns of the running transfer.
    Turn(u32),
    /// The number of reads whose words `play` does not print.
    Skip(u32),
}

impl Record {
    /// Returns the number of events.
    ///
    /// ```
    /// use psxgpu::capture::Record;
    /// assert_eq!(Record::Gp0(vec![0xE100_0000, 0xE200_0000]).count(), 2);
    /// assert_eq!(Record::Skip(7).count(), 7);
    /// ```
    pub fn count(&self) -> u32 {
        match self {
            Record::Ram { words, .. } | Record::Gp0(words) => words.len() as u32,
            Record::Read(count) | Record::Turn(count) | Record::Skip(count) => *count,
            Record::Gp1(_) | Record::Stat | Record::Dma { .. } | Record::Begin(_) => 1,
        }
    }

    /// Returns the events in order.
    pub fn events(&self) -> impl Iterator<Item = Event> + '_ {
        (0..self.count()).map(move |at| self.event(at))
    }

    /// Returns event `at`, which is less than `count`.
    fn event(&self, at: u32) -> Event {
        match self {
            Record::Ram { address, words } => {
                Event::Ram { address: address.wrapping_add(4 * at), word: words[at as usize] }
            }
            Record::Gp0(words) => Event::Gp0(words[at as usize]),
            Record::Gp1(word) => Event::Gp1(*word),
            Record::Read(_) => Event::Read,
            Record::Stat => Event::Stat,
            Record::Dma { channel, start } => Event::Dma { channel: *channel, start: *start },
            Record::Begin(start) => Event::Begin(*start),
            Record::Turn(_) => Event::Turn,
            Record::Skip(_) => Event::Skip,
        }
    }
}
