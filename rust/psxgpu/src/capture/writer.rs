//! Writes a capture while an emulator runs.
use std::error::Error;
use std::fmt;
use std::io::{self, Write};

use super::memory::{Memory, Use};
use super::record::{kind, Event, Start, CAPTURE_MOST, MOST_READS, RAM_BYTES, RAM_WORDS};

/// The bytes that are buffered at most, and so of a record.
const ROOM: usize = 65_536;
const END: [u8; 4] = [0; 4];
const START_BIT: u32 = 0x0100_0000;
/// The bit of an address that ends a list.
const END_OF_LIST: u32 = 0x80_0000;

/// A player would refuse this start of DMA: a list that does not end or goes to main memory, mode 3, or more words than
/// main memory has. Nothing was recorded: the words that the emulator nevertheless moves are for `gp0` and `read`.
#[derive(Clone, Copy, Debug, PartialEq, Eq)]
pub struct Unplayable;

impl fmt::Display for Unplayable {
    fn fmt(&self, out: &mut fmt::Formatter<'_>) -> fmt::Result {
        out.write_str("a player would refuse this start of DMA")
    }
}

impl Error for Unplayable {}

/// The last record of the buffer, which may grow.
#[derive(Clone, Copy)]
struct Last {
    kind: u32,
    count: u32,
    at: usize,
}

/// Records what reaches the GPU: the bytes that `psxgpu_capture.h` writes for the same calls.
///
/// If a write fails, the recording ends, later calls do nothing, and [`finish`](Writer::finish) returns the error. A writer
/// that is dropped completes the capture too, but tells no error. After each [`frame`](Writer::frame) the destination has
/// all records up to there; if the emulator is killed, four bytes 0 complete the capture.
///
/// ```
/// use psxgpu::capture::Writer;
///
/// let mut writer = Writer::new(Vec::new())?; // or a File
/// writer.gp1(0x0300_0000); // a write to 1F801814h
/// writer.gp0(0x0200_00FF); // a write to 1F801810h, or a word that DMA brings there
/// writer.gp0_words(&[0, 0x00F0_0140]);
/// writer.frame(); // a vertical blank
/// assert_eq!(writer.finish()?.len(), 8 + 8 + 16 + 8 + 4);
/// # Ok::<(), std::io::Error>(())
/// ```
pub struct Writer<W: Write> {
    /// `None` after `finish` and after a failed write.
    out: Option<W>,
    error: Option<io::Error>,
    buffer: Vec<u8>,
    last: Option<Last>,
    /// Bytes that were written, all of whole records.
    bytes: u64,
    frames: u32,
    memory: Option<Memory>,
    most: u64,
}

impl<W: Write> Writer<W> {
    /// Begins a capture of version 2.
    pub fn new(mut out: W) -> io::Result<Self> {
        out.write_all(b"PSXGPUC2")?;
        Ok(Writer {
            out: Some(out),
            error: None,
            buffer: Vec::with_capacity(ROOM),
            last: None,
            bytes: 8,
            frames: 0,
            memory: None,
            most: CAPTURE_MOST,
        })
    }

    /// Returns whether the recording goes on: no write has failed.
    pub fn is_open(&self) -> bool {
        self.out.is_some()
    }

    /// Returns the bytes that the destination has. To record for longer than a capture can be, look at it, finish, and
    /// begin the next capture with [`state`](Writer::state).
    pub fn bytes(&self) -> u64 {
        self.bytes
    }

    /// Records a word that is written to GP0 (1F801810h), or that DMA brings there.
    pub fn gp0(&mut self, word: u32) {
        if !self.grow(kind::GP0, 1) {
            self.start_record(kind::GP0, 1, 1);
        }
        self.put(word);
    }

    /// Records words that are written to GP0.
    pub fn gp0_words(&mut self, words: &[u32]) {
        words.iter().for_each(|&word| self.gp0(word));
    }

    /// Records a word that is written to GP1 (1F801814h).
    pub fn gp1(&mut self, word: u32) {
        self.start_record(kind::GP1, 1, 1);
        self.put(word);
    }

    /// Records a read of the data port (1F801810h), or a word that DMA takes there.
    pub fn read(&mut self) {
        self.count(kind::READ);
    }

    /// Records `count` reads whose words `play` is not to print.
    pub fn skip(&mut self, count: u32) {
        (0..count).take_while(|_| self.count(kind::SKIP)).for_each(drop);
    }

    /// Records a read of the status word (1F801814h).
    pub fn stat(&mut self) {
        self.start_record(kind::STAT, 1, 0);
    }

    /// Marks a frame, at a vertical blank: the control word 3Fh, which has no effect, with the number of the frame. Then
    /// passes all records to the destination, and flushes it.
    pub fn frame(&mut self) {
        if self.is_open() {
            self.frames = self.frames.wrapping_add(1);
            self.gp1(0x3F00_0000 | self.frames & 0xFF_FFFF);
            self.flush();
        }
    }

    /// Records the state of a running machine, if the recording begins in its midst or a saved state is loaded: the cells
    /// of 512 rows, the values of E1h to E6h, and words for GP1 (08h, 06h, 07h, 05h, 04h and 03h as they are in force).
    ///
    /// # Panics
    ///
    /// If `cells` are not 512 rows of 1024.
    pub fn state(&mut self, cells: &[u16], settings: &[u32; 6], gp1: &[u32]) {
        assert_eq!(cells.len(), 1024 * 512, "video memory has 512 rows of 1024 cells");
        self.gp1(0);
        // Four loads, since not every emulator takes one of 1024 by 512.
        for part in 0..4 {
            let (left, top) = (part % 2 * 512, part / 2 * 256);
            self.gp0_words(&[0xA000_0000, (top as u32) << 16 | left as u32, 256 << 16 | 512]);
            for row in cells.chunks_exact(1024).skip(top).take(256) {
                for pair in row[left..left + 512].chunks_exact(2) {
                    self.gp0(u32::from(pair[0]) | u32::from(pair[1]) << 16);
                }
            }
        }
        for (opcode, value) in (0xE1..).zip(settings) {
            self.gp0(opcode << 24 | value & 0xFF_FFFF);
        }
        gp1.iter().for_each(|&word| self.gp1(word));
    }

    /// Records a start of channel 2 or 6 before the transfer is done. Then neither `gp0` nor `read` records its words.
    /// `main_memory` returns the word at a byte address, a multiple of 4 below 200000h. The words that the transfer reads
    /// and a player does not know yet are recorded first.
    ///
    /// ```
    /// use psxgpu::capture::{Start, Writer};
    ///
    /// let mut ram = vec![0u32; 0x20_0000 / 4];
    /// ram[0x400..0x404].copy_from_slice(&[0x03FF_FFFF, 0x0200_00FF, 0, 0x0010_0010]); // a list of one node
    /// let mut writer = Writer::new(Vec::new())?;
    /// let start = Start { madr: 0x1000, bcr: 0, chcr: 0x0100_0401 };
    /// writer.dma(2, start, |address| ram[address as usize / 4])?;
    /// # Ok::<(), Box<dyn std::error::Error>>(())
    /// ```
    pub fn dma(&mut self, channel: u32, start: Start, main_memory: impl Fn(u32) -> u32) -> Result<(), Unplayable> {
        if !self.is_open() || start.chcr & START_BIT == 0 || channel != 2 && channel != 6 {
            return Ok(());
        }
        if channel == 6 {
            self.memory().clear_table(start);
        } else {
            self.before_channel_2(start, &main_memory)?;
        }
        self.start_record(kind::DMA, channel, 3);
        self.put_start(start);
        Ok(())
    }

    fn before_channel_2(&mut self, start: Start, main_memory: &impl Fn(u32) -> u32) -> Result<(), Unplayable> {
        let main_memory_use = Use::of(start).ok_or(Unplayable)?;
        if matches!(main_memory_use, Use::ReadsList(first) if !has_end(first, main_memory)) {
            return Err(Unplayable);
        }
        self.memory().replace_turns(None);
        match main_memory_use {
            Use::Writes(range) => self.memory().forget(range),
            Use::Reads(range) => self.sync(range.words(), main_memory),
            Use::ReadsList(first) => self.sync_list(first, main_memory),
        }
        Ok(())
    }

    /// Records words of main memory as they are. `dma` does so by itself; this is for [`begin`](Writer::begin).
    ///
    /// # Panics
    ///
    /// If `address` is not a multiple of 4, or a word would be at 200000h or above.
    pub fn ram(&mut self, address: u32, words: &[u32]) {
        assert!(address % 4 == 0 && address <= RAM_BYTES, "main memory has no words there");
        assert!(words.len() <= ((RAM_BYTES - address) / 4) as usize, "main memory has no words there");
        for (at, (word, &value)) in (address / 4..).zip(words).enumerate() {
            self.put_ram(word, value, at > 0);
        }
    }

    /// Records a start of channel 2 that moves nothing before the first turn. What it reads is for [`ram`](Writer::ram):
    /// a turn reads main memory as the recording has it by then.
    pub fn begin(&mut self, start: Start) -> Result<(), Unplayable> {
        if !self.is_open() || start.chcr & START_BIT == 0 {
            return Ok(());
        }
        let written = match Use::of(start).ok_or(Unplayable)? {
            Use::Writes(range) => Some(range),
            Use::Reads(_) | Use::ReadsList(_) => None,
        };
        self.memory().replace_turns(written);
        self.start_record(kind::BEGIN, 2, 3);
        self.put_start(start);
        Ok(())
    }

    /// Records a turn: the running transfer moves its next block, or the words of its next node.
    pub fn turn(&mut self) {
        self.count(kind::TURN);
    }

    /// Records an event of another capture. A Dma event is recorded as it is, without words of main memory.
    ///
    /// # Panics
    ///
    /// If the event is of an address or a channel that no capture has.
    pub fn event(&mut self, event: &Event) -> Result<(), Unplayable> {
        match *event {
            Event::Ram { address, word } => self.ram(address, &[word]),
            Event::Gp0(word) => self.gp0(word),
            Event::Gp1(word) => self.gp1(word),
            Event::Read => self.read(),
            Event::Stat => self.stat(),
            Event::Begin(start) => return self.begin(start),
            Event::Turn => self.turn(),
            Event::Skip => self.skip(1),
            Event::Dma { channel, start } => {
                assert!(channel == 2 || channel == 6, "a capture has no such channel");
                self.start_record(kind::DMA, channel, 3);
                self.put_start(start);
            }
        }
        Ok(())
    }

    /// Passes all records to the destination, and flushes it.
    pub fn flush(&mut self) {
        self.pass_on();
        if let Some(Err(error)) = self.out.as_mut().map(Write::flush) {
            self.end(Some(error), 0);
        }
    }

    /// Ends the capture. Returns the destination, or the first error of the recording.
    pub fn finish(mut self) -> io::Result<W> {
        self.complete();
        match (self.error.take(), self.out.take()) {
            (None, Some(out)) => Ok(out),
            (error, _) => Err(error.unwrap_or_else(|| io::ErrorKind::Other.into())),
        }
    }

    /// Writes all records and End.
    fn complete(&mut self) {
        self.pass_on();
        if let Some(out) = &mut self.out {
            match out.write_all(&END).and_then(|()| out.flush()) {
                Ok(()) => self.bytes += 4,
                Err(error) => self.end(Some(error), 1),
            }
        }
    }

    fn memory(&mut self) -> &mut Memory {
        self.memory.get_or_insert_with(Memory::new)
    }

    fn put(&mut self, word: u32) {
        if self.is_open() {
            self.buffer.extend_from_slice(&word.to_le_bytes());
        }
    }

    fn put_start(&mut self, start: Start) {
        for word in [start.madr, start.bcr, start.chcr] {
            self.put(word);
        }
    }

    /// Starts a record, with room for its tag and `words` words after it.
    fn start_record(&mut self, kind: u32, count: u32, words: usize) {
        if self.buffer.len() + 4 + 4 * words > ROOM {
            self.pass_on();
        }
        if self.is_open() {
            self.last = Some(Last { kind, count, at: self.buffer.len() });
            self.put(kind << 24 | count);
        }
    }

    /// Raises the count of the last record, if there is room for `words` more words. Returns false if a new record is
    /// needed.
    fn grow(&mut self, kind: u32, words: usize) -> bool {
        match &mut self.last {
            Some(last) if last.kind == kind && last.count < MOST_READS && self.buffer.len() + 4 * words <= ROOM => {
                last.count += 1;
                let tag = kind << 24 | last.count;
                self.buffer[last.at..last.at + 4].copy_from_slice(&tag.to_le_bytes());
                true
            }
            _ => false,
        }
    }

    /// Records one more of a kind without words. Returns whether the recording goes on.
    fn count(&mut self, kind: u32) -> bool {
        if !self.grow(kind, 0) {
            self.start_record(kind, 1, 0);
        }
        self.is_open()
    }

    /// Records a word of main memory. `follows`: the last record has the word before it.
    fn put_ram(&mut self, word: u32, value: u32, follows: bool) {
        if !follows || word == 0 || !self.grow(kind::RAM, 1) {
            self.start_record(kind::RAM, 1, 2);
            self.put(4 * word);
        }
        self.put(value);
        self.memory().set(word, value);
    }

    /// Records words of main memory that a player does not know.
    fn sync(&mut self, words: impl Iterator<Item = u32>, main_memory: &impl Fn(u32) -> u32) {
        let mut follows = false;
        for word in words {
            let value = main_memory(4 * word);
            let is_known = self.memory().has(word, value);
            if !is_known {
                self.put_ram(word, value, follows);
            }
            follows = !is_known;
        }
    }

    /// Records the nodes of a list and the words after each.
    fn sync_list(&mut self, first: u32, main_memory: &impl Fn(u32) -> u32) {
        let mut address = first;
        while address & END_OF_LIST == 0 && self.is_open() {
            let word = address / 4 % RAM_WORDS;
            let header = main_memory(4 * word);
            self.sync((0..=header >> 24).map(|at| (word + at) % RAM_WORDS), main_memory);
            address = header;
        }
    }

    /// Returns the bytes of whole records among the first `most` of the buffer.
    fn whole(&self, most: usize) -> usize {
        let (mut whole, mut next) = (0, 0);
        while next <= most && next < self.buffer.len() {
            whole = next;
            next += 4 * length_of(&self.buffer[next..]);
        }
        if next <= most {
            next
        } else {
            whole
        }
    }

    /// Writes the buffer to the destination. A capture that would be too long ends before.
    fn pass_on(&mut self) {
        let room = (self.most - 4).saturating_sub(self.bytes).min(ROOM as u64) as usize;
        let most = if self.buffer.len() > room { self.whole(room) } else { self.buffer.len() };
        if let Some(out) = &mut self.out {
            let (written, result) = write(out, &self.buffer[..most]);
            match result {
                Err(error) => self.end(Some(error), written),
                Ok(()) if most < self.buffer.len() => self.end(Some(too_long()), written),
                Ok(()) => self.bytes += most as u64,
            }
        }
        self.buffer.clear();
        self.last = None;
    }

    /// Ends the recording by an error. `written`: the bytes of the buffer that the destination has. End follows if they are
    /// whole records.
    fn end(&mut self, error: Option<io::Error>, written: usize) {
        let whole = self.whole(written);
        self.bytes += whole as u64;
        if let Some(mut out) = self.out.take() {
            if whole == written && write(&mut out, &END).1.is_ok() {
                self.bytes += 4;
            }
        }
        self.error = self.error.take().or(error);
        self.buffer.clear();
        self.last = None;
        self.memory = None;
    }
}

impl<W: Write> Drop for Writer<W> {
    fn drop(&mut self) {
        self.complete();
    }
}

impl<W: Write> fmt::Debug for Writer<W> {
    fn fmt(&self, out: &mut fmt::Formatter<'_>) -> fmt::Result {
        out.debug_struct("Writer").field("bytes", &self.bytes).field("is_open", &self.is_open()).finish_non_exhaustive()
    }
}

/// Returns whether a list of main memory ends.
fn has_end(first: u32, main_memory: &impl Fn(u32) -> u32) -> bool {
    let mut address = first;
    for _ in 0..=RAM_WORDS {
        if address & END_OF_LIST != 0 {
            return true;
        }
        address = main_memory(address / 4 % RAM_WORDS * 4);
    }
    false
}

/// Writes bytes. A write that a signal interrupts continues. Returns how many are written, and the error after fewer.
fn write(out: &mut impl Write, bytes: &[u8]) -> (usize, io::Result<()>) {
    let mut written = 0;
    while written < bytes.len() {
        match out.write(&bytes[written..]) {
            Ok(0) => return (written, Err(io::ErrorKind::WriteZero.into())),
            Ok(count) => written += count,
            Err(error) if error.kind() == io::ErrorKind::Interrupted => {}
            Err(error) => return (written, Err(error)),
        }
    }
    (written, Ok(()))
}

/// Returns the words of the record that begins with these bytes, its tag among them.
fn length_of(bytes: &[u8]) -> usize {
    let tag = u32::from_le_bytes([bytes[0], bytes[1], bytes[2], bytes[3]]);
    match tag >> 24 {
        kind::RAM => 2 + (tag & 0xFF_FFFF) as usize,
        kind::GP0 => 1 + (tag & 0xFF_FFFF) as usize,
        kind::GP1 => 2,
        kind::DMA | kind::BEGIN => 4,
        _ => 1,
    }
}

fn too_long() -> io::Error {
    io::Error::new(io::ErrorKind::Other, "a capture has at most 1 GB")
}

#[cfg(test)]
mod tests;
