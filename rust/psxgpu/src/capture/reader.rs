//! Reads the records of a capture, and refuses what a player refuses.
use std::error::Error;
use std::fmt;
use std::io::{self, Read};

use super::record::{kind, Record, Start, CAPTURE_MOST, MOST_READS, RAM_BYTES, RAM_WORDS};

/// The words that are read at a time. A count of a damaged file allocates no more than this before they are there.
const BLOCK: usize = 16_384;

/// Why the bytes of a capture are refused. `event` is the number of events before the fault, plus 1; `byte` is an offset.
/// The text is the line of `psxgpu_tool` without `psxgpu: `.
#[derive(Clone, Copy, Debug, PartialEq, Eq, Hash)]
#[non_exhaustive]
pub enum Fault {
    /// The first bytes are not those of a capture.
    NotCapture {
        /// The number of the event.
        event: u64,
        /// The first byte that differs.
        byte: u64,
    },
    /// The capture ends inside its first eight bytes, inside a record, or before End.
    Truncated {
        /// The number of the event.
        event: u64,
        /// The length of the capture.
        byte: u64,
    },
    /// A tag or the address of a Ram record is not allowed.
    BadRecord {
        /// The number of the event.
        event: u64,
        /// The offset of the word.
        byte: u64,
        /// The word.
        word: u32,
    },
    /// A word would start at 1 GB.
    TooLong {
        /// The number of the event.
        event: u64,
        /// The offset of the word.
        byte: u64,
    },
}

impl fmt::Display for Fault {
    fn fmt(&self, out: &mut fmt::Formatter<'_>) -> fmt::Result {
        match self {
            Fault::NotCapture { event, byte } => write!(out, "not-capture at event {} byte {}", event, byte),
            Fault::Truncated { event, byte } => write!(out, "truncated at event {} byte {}", event, byte),
            Fault::BadRecord { event, byte, word } => {
                write!(out, "bad-record at event {} byte {} word {:08x}", event, byte, word)
            }
            Fault::TooLong { event, byte } => write!(out, "too-long at event {} byte {}", event, byte),
        }
    }
}

impl Error for Fault {}

/// Why a record cannot be read.
#[derive(Debug)]
#[non_exhaustive]
pub enum ReadError {
    /// The capture is damaged.
    Fault(Fault),
    /// The source failed.
    Io(io::Error),
}

impl fmt::Display for ReadError {
    fn fmt(&self, out: &mut fmt::Formatter<'_>) -> fmt::Result {
        match self {
            ReadError::Fault(fault) => fault.fmt(out),
            ReadError::Io(error) => error.fmt(out),
        }
    }
}

impl Error for ReadError {
    fn source(&self) -> Option<&(dyn Error + 'static)> {
        match self {
            ReadError::Fault(_) => None,
            ReadError::Io(error) => Some(error),
        }
    }
}

impl From<Fault> for ReadError {
    fn from(fault: Fault) -> Self {
        ReadError::Fault(fault)
    }
}

impl From<io::Error> for ReadError {
    fn from(error: io::Error) -> Self {
        ReadError::Io(error)
    }
}

/// Iterates over the records of a capture up to End, or up to its first fault. Records before the fault come first, and of
/// a Ram or Gp0 record that is cut off the words that are there. Bytes after End are not read.
///
/// It reads few bytes at a time, so a file is best in a [`BufReader`](std::io::BufReader).
///
/// ```
/// use psxgpu::capture::{Fault, ReadError, Reader, Record};
///
/// let mut reader = Reader::new(&b"PSXGPUC1\x01\x00\x00\x05\x02\x00"[..]);
/// assert_eq!(reader.next().unwrap()?, Record::Stat);
/// match reader.next() {
///     Some(Err(ReadError::Fault(fault))) => assert_eq!(fault.to_string(), "truncated at event 2 byte 14"),
///     other => panic!("{:?}", other),
/// }
/// assert!(reader.next().is_none());
/// # Ok::<(), ReadError>(())
/// ```
#[derive(Debug)]
pub struct Reader<R> {
    source: R,
    version: u32,
    /// The offset of the next word.
    place: u64,
    /// Events of the records so far.
    events: u64,
    /// A fault that follows the words of the last record.
    later: Option<ReadError>,
    ended: bool,
    most: u64,
}

impl<R: Read> Reader<R> {
    /// Makes a reader of the bytes of `source`.
    pub fn new(source: R) -> Self {
        Reader { source, version: 0, place: 0, events: 0, later: None, ended: false, most: CAPTURE_MOST }
    }

    /// Makes a reader of the records after the state of a snapshot, which begin at byte `place`, after `events` events.
    #[cfg(feature = "machine")]
    pub(crate) fn after_state(source: R, place: u64, events: u64) -> Self {
        Reader { version: 2, place, events, ..Reader::new(source) }
    }

    /// Returns the version, 1 to 3, or 0 if no record was read yet. Video memory has 1024 rows in version 3, else 512.
    pub fn version(&self) -> u32 {
        self.version
    }

    /// Returns the number of events of the records so far.
    pub fn events(&self) -> u64 {
        self.events
    }

    /// Returns the source, after the bytes that were read.
    pub fn into_inner(self) -> R {
        self.source
    }

    /// Returns the next record, or `None` after End.
    fn record(&mut self) -> Result<Option<Record>, ReadError> {
        if let Some(fault) = self.later.take() {
            return Err(fault);
        }
        if self.version == 0 {
            self.version = self.head()?;
        }
        let place = self.place;
        let tag = self.word()?;
        let count = tag & 0xFF_FFFF;
        if !is_allowed(self.version, tag >> 24, count) {
            return Err(self.bad_record(place, tag));
        }
        Ok(Some(match tag >> 24 {
            kind::END => return Ok(None),
            kind::RAM => self.ram(count)?,
            kind::GP0 => Record::Gp0(self.words(count)?),
            kind::GP1 => Record::Gp1(self.word()?),
            kind::READ => Record::Read(count),
            kind::STAT => Record::Stat,
            kind::DMA => Record::Dma { channel: count, start: self.start()? },
            kind::BEGIN => Record::Begin(self.start()?),
            kind::TURN => Record::Turn(count),
            _ => Record::Skip(count),
        }))
    }

    fn ram(&mut self, count: u32) -> Result<Record, ReadError> {
        let place = self.place;
        let address = self.word()?;
        if address % 4 != 0 || address > RAM_BYTES || address + 4 * count > RAM_BYTES {
            return Err(self.bad_record(place, address));
        }
        Ok(Record::Ram { address, words: self.words(count)? })
    }

    fn start(&mut self) -> Result<Start, ReadError> {
        Ok(Start { madr: self.word()?, bcr: self.word()?, chcr: self.word()? })
    }

    /// Returns the version of the first eight bytes.
    fn head(&mut self) -> Result<u32, ReadError> {
        let mut head = [0; 8];
        self.fill(&mut head)?;
        let same = head.iter().zip(b"PSXGPUC").take_while(|(one, other)| one == other).count();
        match head[7] {
            digit @ b'1'..=b'3' if same == 7 => Ok(u32::from(digit - b'0')),
            _ => Err(Fault::NotCapture { event: 1, byte: same as u64 }.into()),
        }
    }

    fn word(&mut self) -> Result<u32, ReadError> {
        let mut bytes = [0; 4];
        self.check_length()?;
        self.fill(&mut bytes)?;
        Ok(u32::from_le_bytes(bytes))
    }

    /// Returns `count` words, or those that are there, if there is one. Then the fault comes next.
    fn words(&mut self, count: u32) -> Result<Vec<u32>, ReadError> {
        let mut words = Vec::new();
        let mut bytes = Vec::new();
        while words.len() < count as usize {
            let room = (self.most - self.place) / 4;
            let block = (count as usize - words.len()).min(BLOCK).min(room as usize);
            bytes.resize(4 * block, 0);
            let first = self.place;
            let result = self.check_length().and_then(|()| self.fill(&mut bytes));
            let there = (self.place - first) as usize;
            words.extend(bytes[..there].chunks_exact(4).map(word_of));
            if let Err(fault) = result {
                if words.is_empty() {
                    return Err(fault);
                }
                self.later = Some(self.after(fault, words.len()));
                break;
            }
        }
        Ok(words)
    }

    /// Returns a fault as it is after `count` more events.
    fn after(&self, fault: ReadError, count: usize) -> ReadError {
        let event = self.events + count as u64 + 1;
        match fault {
            ReadError::Fault(Fault::Truncated { byte, .. }) => Fault::Truncated { event, byte }.into(),
            ReadError::Fault(Fault::TooLong { byte, .. }) => Fault::TooLong { event, byte }.into(),
            other => other,
        }
    }

    /// Refuses a word that would start where a capture has to be over.
    fn check_length(&self) -> Result<(), ReadError> {
        if self.place < self.most {
            return Ok(());
        }
        Err(Fault::TooLong { event: self.events + 1, byte: self.place }.into())
    }

    /// Fills the bytes. At the end of the source, `place` is its length.
    fn fill(&mut self, bytes: &mut [u8]) -> Result<(), ReadError> {
        let mut there = 0;
        while there < bytes.len() {
            match self.source.read(&mut bytes[there..]) {
                Ok(0) => return Err(Fault::Truncated { event: self.events + 1, byte: self.place }.into()),
                Ok(count) => {
                    there += count;
                    self.place += count as u64;
                }
                Err(error) if error.kind() == io::ErrorKind::Interrupted => {}
                Err(error) => return Err(error.into()),
            }
        }
        Ok(())
    }

    fn bad_record(&self, byte: u64, word: u32) -> ReadError {
        Fault::BadRecord { event: self.events + 1, byte, word }.into()
    }
}

impl<R: Read> Iterator for Reader<R> {
    type Item = Result<Record, ReadError>;

    fn next(&mut self) -> Option<Self::Item> {
        if self.ended {
            return None;
        }
        let result = self.record();
        match &result {
            Ok(Some(record)) => self.events += u64::from(record.count()),
            _ => self.ended = true,
        }
        result.transpose()
    }
}

fn word_of(bytes: &[u8]) -> u32 {
    u32::from_le_bytes([bytes[0], bytes[1], bytes[2], bytes[3]])
}

/// Returns whether a capture of this version may have a record of this kind and count.
fn is_allowed(version: u32, kind: u32, count: u32) -> bool {
    match kind {
        kind::END => count == 0,
        kind::RAM => (1..=RAM_WORDS).contains(&count),
        kind::GP0 => count >= 1,
        kind::GP1 | kind::STAT => count == 1,
        kind::DMA => count == 2 || count == 6,
        kind::BEGIN => version > 1 && count == 2,
        kind::TURN | kind::SKIP => version > 1 && (1..=MOST_READS).contains(&count),
        kind::READ => (1..=MOST_READS).contains(&count),
        _ => false,
    }
}

#[cfg(test)]
mod tests {
    use super::*;

    fn read(bytes: &[u8], most: u64) -> (Vec<Record>, String) {
        let mut reader = Reader { most, ..Reader::new(bytes) };
        let records: Vec<_> = reader.by_ref().map_while(Result::ok).collect();
        let mut again = Reader { most, ..Reader::new(bytes) };
        let fault = again.find_map(Result::err).map_or(String::new(), |fault| fault.to_string());
        assert!(again.next().is_none());
        (records, fault)
    }

    #[test]
    fn a_capture_that_is_too_long() {
        let bytes = b"PSXGPUC1\x05\x00\x00\x02aaaabbbbccccddddeeee\0\0\0\0";
        assert_eq!(read(bytes, CAPTURE_MOST).0[0].count(), 5);
        let (records, fault) = read(bytes, 20);
        assert_eq!(records, [Record::Gp0(vec![0x6161_6161, 0x6262_6262])]);
        assert_eq!(fault, "too-long at event 3 byte 20");
        assert_eq!(read(bytes, 12), (vec![], "too-long at event 1 byte 12".to_owned()));
        assert_eq!(read(bytes, 32).1, "too-long at event 6 byte 32");
        assert_eq!(read(bytes, 36).1, "");
    }

    #[test]
    fn a_source_that_is_interrupted_and_one_that_fails() {
        struct Slow(Vec<u8>, bool);
        impl Read for Slow {
            fn read(&mut self, out: &mut [u8]) -> io::Result<usize> {
                self.1 = !self.1;
                if self.1 {
                    return Err(io::ErrorKind::Interrupted.into());
                } else if self.0.is_empty() {
                    return Err(io::ErrorKind::PermissionDenied.into());
                }
                out[0] = self.0.remove(0);
                Ok(1)
            }
        }
        let mut reader = Reader::new(Slow(b"PSXGPUC2\x02\x00\x00\x09\x02\x00\x00\x02abcde".to_vec(), false));
        assert_eq!(reader.next().unwrap().unwrap(), Record::Skip(2));
        assert_eq!(reader.next().unwrap().unwrap(), Record::Gp0(vec![0x6463_6261]));
        match reader.next() {
            Some(Err(ReadError::Io(error))) => assert_eq!(error.kind(), io::ErrorKind::PermissionDenied),
            other => panic!("{:?}", other),
        }
        assert_eq!((reader.events(), reader.version()), (3, 2));
        assert!(reader.next().is_none());
    }
}
