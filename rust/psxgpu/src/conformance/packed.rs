//! Unpacks `suite.bin`, which rust/pack_suite.py of the checkout writes: the length of the tests, and a block of LZ4.
use super::suite::{Decides, ExpectedWord, Picture, Run, Shown, Test};

static SUITE: &[u8] = include_bytes!("suite.bin");
const DMA: u8 = 1;
const TALL: u8 = 2;

/// Returns the number of the suite, and its tests.
pub(super) fn unpacked() -> (u16, Vec<Test>) {
    let mut packed = Bytes(SUITE);
    let length = packed.number(4);
    let data = decompressed(&mut packed, length);
    let mut bytes = Bytes(&data);
    let number = bytes.number(2) as u16;
    let count = bytes.number(2);
    (number, (0..count).map(|_| test(&mut bytes)).collect())
}

/// The bytes that are not read yet.
struct Bytes<'a>(&'a [u8]);

impl<'a> Bytes<'a> {
    fn take(&mut self, count: usize) -> &'a [u8] {
        let (taken, rest) = self.0.split_at(count);
        self.0 = rest;
        taken
    }

    /// Reads a number of `count` bytes, the low one first.
    fn number(&mut self, count: usize) -> usize {
        self.take(count).iter().rev().fold(0, |number, &byte| number << 8 | usize::from(byte))
    }

    fn half(&mut self) -> u16 {
        self.number(2) as u16
    }

    fn text(&mut self) -> String {
        let length = self.number(2);
        String::from_utf8_lossy(self.take(length)).into_owned()
    }

    fn block(&mut self) -> Vec<u8> {
        let length = self.number(4);
        self.take(length).to_vec()
    }

    /// Reads what follows a field of four bits: more of the number, if the field is full.
    fn rest_of(&mut self, field: u8) -> usize {
        let mut number = usize::from(field);
        let mut is_full = field == 15;
        while is_full {
            let more = self.number(1);
            number += more;
            is_full = more == 255;
        }
        number
    }
}

/// Decodes a block of LZ4 with this many bytes in it.
fn decompressed(packed: &mut Bytes<'_>, length: usize) -> Vec<u8> {
    let mut out = Vec::with_capacity(length);
    while out.len() < length {
        let head = packed.number(1) as u8;
        let literals = packed.rest_of(head >> 4);
        out.extend_from_slice(packed.take(literals));
        if out.len() < length {
            let offset = packed.number(2);
            let mut left = packed.rest_of(head & 15) + 4;
            // A match may go on into what it writes.
            while left > 0 {
                let start = out.len() - offset;
                let some = left.min(offset);
                out.extend_from_within(start..start + some);
                left -= some;
            }
        }
    }
    out
}

fn test(bytes: &mut Bytes<'_>) -> Test {
    let (name, rule, section) = (bytes.text(), bytes.text(), bytes.text());
    let decides = if bytes.number(1) == 1 { Decides::PsxSpx } else { Decides::OwnRule };
    let needs = bytes.number(1) as u8;
    let (capture, flat) = (bytes.block(), bytes.block());
    let cells = (0..bytes.number(4)).map(|_| run(bytes)).collect();
    let ignored = (0..bytes.number(2)).map(|_| (bytes.half(), bytes.half(), bytes.half())).collect();
    let words =
        (0..bytes.number(2)).map(|_| ExpectedWord { word: bytes.number(4) as u32, mask: bytes.number(4) as u32 });
    let words = words.collect();
    let needs_dma = needs & DMA != 0;
    let is_tall = needs & TALL != 0;
    Test {
        name,
        rule,
        section,
        decides,
        needs_dma,
        is_tall,
        capture,
        flat,
        cells,
        ignored,
        words,
        picture: shown(bytes),
    }
}

fn run(bytes: &mut Bytes<'_>) -> Run {
    let (x, y, count) = (bytes.half(), bytes.half(), bytes.half());
    Run { x, y, cells: (0..count).map(|_| bytes.half()).collect() }
}

fn shown(bytes: &mut Bytes<'_>) -> Shown {
    match bytes.number(1) {
        0 => Shown::NotAsked,
        2 => Shown::Nothing,
        _ => {
            let (width, height) = (bytes.half(), bytes.half());
            let pixels = bytes.take(3 * usize::from(width) * usize::from(height)).to_vec();
            Shown::Picture(Picture { width, height, pixels })
        }
    }
}
