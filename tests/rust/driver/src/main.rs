//! What the tests of the crate run:
//!
//!     driver play MODE [X Y] < CAPTURE    what psxgpu_tool does, by the crate
//!     driver records < CAPTURE            a line for each event, as tests/recorder/test_reader.c prints them
//!     driver frames END < CAPTURE         the pictures of `flips` or `marks`, each as PPM
//!     driver record FILE < CALLS          does the calls of a script, as calls.c
//!     driver suite                        a line for each test of the suite
mod record;
mod suite;

use std::env;
use std::error::Error;
use std::io::{self, Read, Write};
use std::process;

use psxgpu::capture::{Event, Reader, Start};
use psxgpu::{frames, play, play_size, play_to, FrameEnd, Mode};

type Result<T> = std::result::Result<T, Box<dyn Error>>;

fn main() {
    let words: Vec<String> = env::args().skip(1).collect();
    let words: Vec<&str> = words.iter().map(String::as_str).collect();
    let mut out = io::BufWriter::new(io::stdout());
    let result = match words[..] {
        ["record", path] => record::record(path, &mut out),
        ["records"] => records(&mut out),
        ["suite"] => suite::print(&mut out),
        ["frames", end] => pictures(end, &mut out),
        ["play", ref mode @ ..] => played(mode, &mut out),
        _ => Err("wrong arguments".into()),
    };
    out.flush().expect("standard output is open");
    if let Err(error) = result {
        eprintln!("psxgpu: {}", error);
        process::exit(2);
    }
}

fn standard_input() -> io::Result<Vec<u8>> {
    let mut bytes = Vec::new();
    io::stdin().read_to_end(&mut bytes)?;
    Ok(bytes)
}

fn played(mode: &[&str], out: &mut impl Write) -> Result<()> {
    let mode = match *mode {
        ["play"] => Mode::Play,
        ["vram"] => Mode::Vram,
        ["shot"] => Mode::Shot,
        ["list"] => Mode::List,
        ["report"] => Mode::Report,
        ["frames"] => Mode::Frames,
        ["frames", "marks"] => Mode::FramesMarks,
        ["sums"] => Mode::Sums,
        ["sums", "marks"] => Mode::SumsMarks,
        ["pixel", x, y] => Mode::Pixel(x.parse()?, y.parse()?),
        _ => return Err("no such mode".into()),
    };
    let capture = standard_input()?;
    match play(&capture, mode) {
        Ok(output) => {
            expect_same(&capture, mode, &output)?;
            Ok(out.write_all(&output)?)
        }
        Err(refused) => {
            expect_same(&capture, mode, &refused.output)?;
            out.write_all(&refused.output)?;
            Err(refused.into())
        }
    }
}

/// Refuses an output that `play_to` does not write, or whose number of bytes `play_size` does not return.
fn expect_same(capture: &[u8], mode: Mode, output: &[u8]) -> Result<()> {
    let mut written = Vec::new();
    let written_whole = play_to(capture, mode, &mut written).is_ok();
    let (size, result) = play_size(capture, mode);
    if written == output && size == output.len() && written_whole == result.is_ok() {
        Ok(())
    } else {
        Err("play_to or play_size differs from play".into())
    }
}

fn pictures(end: &str, out: &mut impl Write) -> Result<()> {
    let end = if end == "marks" { FrameEnd::Mark } else { FrameEnd::Flip };
    for frame in frames(&standard_input()?, end)? {
        let frame = frame?;
        write!(out, "P6\n{} {}\n255\n", frame.width, frame.height)?;
        for pixel in frame.rgba.chunks_exact(4) {
            out.write_all(&pixel[..3])?;
        }
    }
    Ok(())
}

fn records(out: &mut impl Write) -> Result<()> {
    let mut number = 0u64;
    for record in Reader::new(io::BufReader::new(io::stdin())) {
        for event in record?.events() {
            number += 1;
            write!(out, "{} ", number)?;
            print_event(&event, out)?;
        }
    }
    Ok(())
}

fn print_event(event: &Event, out: &mut impl Write) -> io::Result<()> {
    match *event {
        Event::Ram { address, word } => writeln!(out, "1 {:08x} {:08x}", address, word),
        Event::Gp0(word) => writeln!(out, "2 {:08x}", word),
        Event::Gp1(word) => writeln!(out, "3 {:08x}", word),
        Event::Read => writeln!(out, "4"),
        Event::Stat => writeln!(out, "5"),
        Event::Dma { channel, start } => print_start(6, channel, start, out),
        Event::Begin(start) => print_start(7, 2, start, out),
        Event::Turn => writeln!(out, "8"),
        Event::Skip => writeln!(out, "9"),
    }
}

fn print_start(kind: u32, channel: u32, start: Start, out: &mut impl Write) -> io::Result<()> {
    writeln!(out, "{} {} {:08x} {:08x} {:08x}", kind, channel, start.madr, start.bcr, start.chcr)
}
