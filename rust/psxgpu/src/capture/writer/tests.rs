//! A recording that ends early, and what turns make of main memory.
use super::*;
use crate::capture::{Reader, Record};
use std::cell::RefCell;
use std::rc::Rc;

/// A destination that takes so many bytes, and is interrupted before each write.
struct Disk {
    bytes: Rc<RefCell<Vec<u8>>>,
    room: usize,
    is_interrupted: bool,
}

impl Write for Disk {
    fn write(&mut self, bytes: &[u8]) -> io::Result<usize> {
        self.is_interrupted = !self.is_interrupted;
        if self.is_interrupted {
            return Err(io::ErrorKind::Interrupted.into());
        }
        let mut disk = self.bytes.borrow_mut();
        let count = bytes.len().min(self.room - disk.len());
        disk.extend_from_slice(&bytes[..count]);
        if count == 0 {
            return Err(io::ErrorKind::PermissionDenied.into());
        }
        Ok(count)
    }

    fn flush(&mut self) -> io::Result<()> {
        Ok(())
    }
}

fn disk(room: usize) -> (Disk, Rc<RefCell<Vec<u8>>>) {
    let bytes = Rc::default();
    (Disk { bytes: Rc::clone(&bytes), room, is_interrupted: false }, bytes)
}

/// Frames of 1000 words each. Returns how many were recorded.
fn many(writer: &mut Writer<impl Write>) -> usize {
    let mut count = 0;
    while writer.is_open() && count < 100 {
        writer.gp0_words(&[0; 1000]);
        writer.frame();
        writer.stat();
        writer.skip(3);
        count += 1;
    }
    count
}

/// Returns the events of a capture to which `ends` is added.
fn events_of(bytes: &[u8], ends: &[u8]) -> Result<Vec<Event>, String> {
    let whole = [bytes, ends].concat();
    let records = Reader::new(&whole[..]).collect::<Result<Vec<Record>, _>>().map_err(|error| error.to_string())?;
    Ok(records.iter().flat_map(|record| record.events().collect::<Vec<_>>()).collect())
}

fn whole() -> Vec<Event> {
    let (out, bytes) = disk(1 << 30);
    let mut writer = Writer::new(out).unwrap();
    assert_eq!(many(&mut writer), 100);
    assert_eq!(writer.finish().map(drop).map_err(|error| error.kind()), Ok(()));
    let events = events_of(&bytes.borrow(), &[]).unwrap();
    assert_eq!(events.len(), 100 * 1005);
    events
}

#[test]
fn a_capture_that_would_be_too_long_ends_before() {
    let whole = whole();
    let (out, bytes) = disk(1 << 30);
    let mut writer = Writer::new(out).unwrap();
    writer.most = 50_000;
    many(&mut writer);
    let length = writer.bytes();
    assert_eq!(writer.finish().map(drop).unwrap_err().to_string(), too_long().to_string());
    let bytes = bytes.borrow();
    assert!(bytes.len() <= 50_000 && bytes.len() > 45_000 && bytes.len() as u64 == length, "{}", bytes.len());
    let events = events_of(&bytes, &[]).unwrap();
    assert_eq!(events[..], whole[..events.len()]);
}

#[test]
fn a_destination_that_is_full_has_the_first_events() {
    let whole = whole();
    for room in [8, 9, 12, 4019, 4020, 4021, 4024, 4028, 4032, 8033, 60_001] {
        let (out, bytes) = disk(room);
        let mut writer = Writer::new(out).unwrap();
        assert!(many(&mut writer) <= 16);
        let length = writer.bytes();
        assert_eq!(writer.finish().map(drop).unwrap_err().kind(), io::ErrorKind::PermissionDenied);
        let bytes = bytes.borrow();
        assert!(bytes.len() == room && length as usize <= room, "{}: {} {}", room, bytes.len(), length);
        // Zeros that may be missing complete it up to there, unless the write was cut inside of a record.
        let events = events_of(&bytes[..(length as usize).min(room)], &END).unwrap();
        assert_eq!(events[..], whole[..events.len()]);
    }
    assert!(Writer::new(disk(7).0).is_err());
}

#[test]
fn later_calls_do_nothing() {
    let (out, bytes) = disk(8);
    let mut writer = Writer::new(out).unwrap();
    writer.frame();
    assert!(!writer.is_open());
    many(&mut writer);
    writer.gp0(1);
    writer.gp0(1);
    writer.ram(0, &[1, 2]);
    writer.turn();
    writer.skip(u32::MAX);
    writer.flush();
    let start = Start { madr: 0, bcr: 1, chcr: 0x0100_0001 };
    assert_eq!((writer.dma(2, start, |_| 7), writer.begin(start)), (Ok(()), Ok(())));
    assert!(writer.finish().is_err());
    assert_eq!(bytes.borrow().len(), 8);
}

#[test]
fn a_writer_that_is_dropped_completes_the_capture() {
    let (out, bytes) = disk(100);
    let mut writer = Writer::new(out).unwrap();
    writer.stat();
    drop(writer);
    assert_eq!(bytes.borrow()[..], *b"PSXGPUC2\x01\0\0\x05\0\0\0\0");
}

/// Returns the records of what some calls write.
fn recorded(calls: impl Fn(&mut Writer<Vec<u8>>)) -> Vec<Record> {
    let mut writer = Writer::new(Vec::new()).unwrap();
    calls(&mut writer);
    Reader::new(&writer.finish().unwrap()[..]).map(Result::unwrap).collect()
}

#[test]
fn words_that_turns_may_write_are_recorded_again() {
    let to_memory = Start { madr: 0x100, bcr: 0x0002_0002, chcr: 0x0100_0200 };
    let read = Start { madr: 0x100, bcr: 1, chcr: 0x0100_0001 };
    let word = Record::Ram { address: 0x100, words: vec![7] };
    let dma = Record::Dma { channel: 2, start: read };
    // A start without bit 24 is none, and leaves the running transfer.
    let none = Start { chcr: 0, ..to_memory };
    let found = recorded(|writer| {
        for start in [to_memory, none] {
            writer.begin(start).unwrap();
            writer.turn();
            writer.dma(2, read, |_| 7).unwrap();
            writer.dma(2, read, |_| 7).unwrap();
        }
        writer.ram(0x1F_FFFC, &[9]);
    });
    let first = [Record::Begin(to_memory), Record::Turn(1), word, dma.clone(), dma.clone()];
    let second = [Record::Turn(1), dma.clone(), dma, Record::Ram { address: 0x1F_FFFC, words: vec![9] }];
    assert_eq!(found, [&first[..], &second[..]].concat());
}

#[test]
fn events_of_another_capture() {
    let start = Start { madr: 4, bcr: 2, chcr: 0x0100_0201 };
    let records = [
        Record::Ram { address: 4, words: vec![1] },
        Record::Gp0(vec![2, 3]),
        Record::Gp1(4),
        Record::Read(5),
        Record::Stat,
        Record::Dma { channel: 6, start },
        Record::Begin(start),
        Record::Turn(6),
        Record::Skip(7),
    ];
    let found = recorded(|writer| {
        let events = records.iter().flat_map(|record| record.events().collect::<Vec<_>>());
        events.for_each(|event| writer.event(&event).unwrap());
    });
    assert_eq!(found, records);
}

#[test]
fn starts_that_a_player_refuses() {
    let mut writer = Writer::new(Vec::new()).unwrap();
    for (bcr, chcr) in [(0, 0x0100_0601), (0, 0x0100_0400), (0x0009_0000, 0x0100_0201), (0, 0x0100_0401)] {
        let start = Start { madr: 0, bcr, chcr };
        assert_eq!(writer.dma(2, start, |_| 0), Err(Unplayable), "{:x}", chcr);
    }
    assert_eq!(writer.begin(Start { madr: 0, bcr: 0, chcr: 0x0100_0601 }), Err(Unplayable));
    assert_eq!(writer.finish().unwrap(), b"PSXGPUC2\0\0\0\0");
}
