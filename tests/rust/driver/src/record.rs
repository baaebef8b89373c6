//! Does the calls of a script: a line for each, as calls.c reads them.
use std::fs::File;
use std::io::{self, BufRead, Write};

use psxgpu::capture::{Start, Writer};

use crate::Result;

const RAM_WORDS: usize = 0x20_0000 / 4;

pub fn record(path: &str, out: &mut impl Write) -> Result<()> {
    let mut writer = Writer::new(File::create(path)?)?;
    let mut ram = vec![0; RAM_WORDS];
    let mut refused = 0;
    for line in io::stdin().lock().lines() {
        let line = line?;
        let mut words = line.split_whitespace();
        let call = words.next().ok_or("a call has a name")?;
        let given = words.map(|word| u32::from_str_radix(word, 16)).collect::<std::result::Result<Vec<_>, _>>()?;
        refused += u32::from(!do_call(&mut writer, &mut ram, call, &given)?);
    }
    let file = writer.finish()?;
    writeln!(out, "refused {} bytes {}", refused, file.metadata()?.len())?;
    Ok(())
}

/// Does one call. Returns false if it was a start of DMA that a player would refuse.
fn do_call(writer: &mut Writer<File>, ram: &mut [u32], call: &str, given: &[u32]) -> Result<bool> {
    match (call, given) {
        ("gp0", [word]) => writer.gp0(*word),
        ("gp1", [word]) => writer.gp1(*word),
        ("read", []) => writer.read(),
        ("skip", [count]) => writer.skip(*count),
        ("stat", []) => writer.stat(),
        ("frame", []) => writer.frame(),
        ("flush", []) => writer.flush(),
        ("poke", [address, word]) => ram[*address as usize / 4 % RAM_WORDS] = *word,
        ("state", [seed, gp1 @ ..]) => {
            let cells: Vec<u16> = (0..1024 * 512u32).map(|k| (k.wrapping_mul(*seed) >> 8) as u16).collect();
            writer.state(&cells, &[0x600, 1, 2, 0x7FFFF, 0xFFFF_FFFF, 3], gp1);
        }
        ("dma", [channel, madr, bcr, chcr]) => {
            let start = Start { madr: *madr, bcr: *bcr, chcr: *chcr };
            return Ok(writer.dma(*channel, start, |address| ram[address as usize / 4]).is_ok());
        }
        _ => return Err("no such call".into()),
    }
    Ok(true)
}
