//! Whole captures and snapshots: the output of a command of `psxgpu_tool`, and the frames.
use std::error;
use std::fmt;
use std::io::{self, Write};

use super::error::{check_version, Error};
use super::ffi::{self, Ended};
use super::gpu::Gpu;
use super::output::Output;
use crate::capture::{Reader, Record};

/// The bytes of a snapshot's End record.
const END_BYTES: usize = 4;
/// The columns of video memory, and the most rows.
const COLUMNS: u16 = 1024;
const SNAPSHOT: &[u8] = b"PSXGPUS1";
const TALL: &[u8] = b"PSXGPUC3";

/// What is written of a capture: each is a command of `psxgpu_tool`.
#[derive(Clone, Copy, Debug, PartialEq, Eq, Hash)]
#[non_exhaustive]
pub enum Mode {
    /// `play`: the words read, and the status word.
    Play,
    /// `vram`: video memory.
    Vram,
    /// `shot`: the shown picture as PPM.
    Shot,
    /// `list`: a line for each packet.
    List,
    /// `report`: counts, the last packets, areas.
    Report,
    /// `frames`: a picture after each flip.
    Frames,
    /// `frames marks`: a picture after each mark.
    FramesMarks,
    /// `sums`: a line for each flip.
    Sums,
    /// `sums marks`: a line for each mark.
    SumsMarks,
    /// `pixel X Y`: the packets that changed this cell.
    Pixel(
        /// The column, 0 to 1023.
        u16,
        /// The row, 0 to 1023.
        u16,
    ),
}

impl Mode {
    /// Returns the number of the mode, and its cell.
    fn numbers(self) -> (u32, u32) {
        match self {
            Mode::Play => (0, 0),
            Mode::Vram => (1, 0),
            Mode::Shot => (2, 0),
            Mode::List => (3, 0),
            Mode::Report => (4, 0),
            Mode::Frames => (5, 0),
            Mode::FramesMarks => (6, 0),
            Mode::Sums => (7, 0),
            Mode::SumsMarks => (8, 0),
            Mode::Pixel(x, y) => (9, u32::from(x) | u32::from(y) << 16),
        }
    }
}

/// Why a capture was refused, and what was written before.
#[derive(Clone, Debug, PartialEq, Eq)]
#[non_exhaustive]
pub struct Refused {
    /// The cause.
    pub error: Error,
    /// The output of the events before.
    pub output: Vec<u8>,
}

impl fmt::Display for Refused {
    fn fmt(&self, out: &mut fmt::Formatter<'_>) -> fmt::Result {
        self.error.fmt(out)
    }
}

impl error::Error for Refused {
    fn source(&self) -> Option<&(dyn error::Error + 'static)> {
        Some(&self.error)
    }
}

/// Why [`play_to`] did not write a whole output.
#[derive(Debug)]
#[non_exhaustive]
pub enum PlayError {
    /// The capture was refused. The output of the events before is written.
    Refused(Error),
    /// The writer failed.
    Io(io::Error),
}

impl fmt::Display for PlayError {
    fn fmt(&self, out: &mut fmt::Formatter<'_>) -> fmt::Result {
        match self {
            PlayError::Refused(error) => error.fmt(out),
            PlayError::Io(error) => error.fmt(out),
        }
    }
}

impl error::Error for PlayError {
    fn source(&self) -> Option<&(dyn error::Error + 'static)> {
        match self {
            PlayError::Refused(error) => Some(error),
            PlayError::Io(error) => Some(error),
        }
    }
}

impl From<Error> for PlayError {
    fn from(error: Error) -> Self {
        PlayError::Refused(error)
    }
}

impl From<io::Error> for PlayError {
    fn from(error: io::Error) -> Self {
        PlayError::Io(error)
    }
}

/// Plays a capture or a snapshot on a machine of its own. Returns what `psxgpu_tool` writes.
///
/// ```
/// use psxgpu::{play, Mode};
///
/// let capture = b"PSXGPUC1\x01\x00\x00\x05\x00\x00\x00\x00"; // the status word, once
/// assert_eq!(play(capture, Mode::Play)?, b"14802000\nstatus 14802000\n");
/// let refused = play(&capture[..12], Mode::Play).unwrap_err();
/// assert_eq!(refused.to_string(), "truncated at event 2 byte 12");
/// assert_eq!(refused.output, b"14802000\n");
/// # Ok::<(), psxgpu::Refused>(())
/// ```
pub fn play(capture: &[u8], mode: Mode) -> Result<Vec<u8>, Refused> {
    let request = Request::of(capture, mode).map_err(|error| Refused { error, output: Vec::new() })?;
    let (output, result) = Output::of(&request);
    let output = output.into_bytes();
    match result {
        Ok(()) => Ok(output),
        Err(error) => Err(Refused { error, output }),
    }
}

/// Plays a capture or a snapshot on a machine of its own, and writes its output to `out`, in order. Returns the number
/// of bytes. The machine plays to its end before the first byte is written, and the library keeps the output meanwhile.
///
/// # Errors
///
/// [`PlayError::Io`] if `out` fails: then nothing more is written, whether or not the capture is refused. Else
/// [`PlayError::Refused`] if it is refused: the output before the refusal is written.
///
/// ```
/// use psxgpu::{play_to, Mode, PlayError};
///
/// let capture = b"PSXGPUC1\x01\x00\x00\x05\x00\x00\x00\x00";
/// let mut file = Vec::new();
/// assert_eq!(play_to(capture, Mode::Play, &mut file)?, 25);
/// assert_eq!(file, b"14802000\nstatus 14802000\n");
/// # Ok::<(), PlayError>(())
/// ```
pub fn play_to<W: Write>(capture: &[u8], mode: Mode, mut out: W) -> Result<usize, PlayError> {
    let (output, result) = Output::of(&Request::of(capture, mode)?);
    let count = output.write_to(&mut out)?;
    result?;
    Ok(count)
}

/// Plays a capture or a snapshot on a machine of its own, and keeps no output. Returns how many bytes [`play_into`]
/// writes to a buffer that is large enough, also before an error.
///
/// ```
/// use psxgpu::{play_into, play_size, Mode};
///
/// let capture = b"PSXGPUC1\x01\x00\x00\x05\x00\x00\x00\x00";
/// let (size, result) = play_size(capture, Mode::Play);
/// assert_eq!((size, &result), (25, &Ok(())));
/// assert_eq!(play_into(capture, Mode::Play, &mut vec![0; size]), (size, result));
/// ```
pub fn play_size(capture: &[u8], mode: Mode) -> (usize, Result<(), Error>) {
    let Request { mode, cell, capture } = match Request::of(capture, mode) {
        Ok(request) => request,
        Err(error) => return (0, Err(error)),
    };
    let mut ended = Ended::default();
    // SAFETY: pointer and count are those of a slice, and `ended` is a variable of this call.
    unsafe {
        ffi::psxgpu_play_size(mode, cell, capture.as_ptr(), capture.len(), &mut ended);
    }
    (ended.written, Error::of(ended))
}

/// Plays a capture or a snapshot on a machine of its own, and writes its output to a buffer of the caller. Returns how many
/// bytes it wrote, also before an error. [`Error::NoRoom`] means that the buffer is full and the output is longer.
///
/// ```
/// use psxgpu::{play_into, Error, Mode};
///
/// let capture = b"PSXGPUC1\x01\x00\x00\x05\x00\x00\x00\x00";
/// let mut line = [0; 9];
/// assert_eq!(play_into(capture, Mode::Play, &mut line), (9, Err(Error::NoRoom)));
/// assert_eq!(&line, b"14802000\n");
/// ```
pub fn play_into(capture: &[u8], mode: Mode, out: &mut [u8]) -> (usize, Result<(), Error>) {
    let Request { mode, cell, capture } = match Request::of(capture, mode) {
        Ok(request) => request,
        Err(error) => return (0, Err(error)),
    };
    let mut ended = Ended::default();
    // SAFETY: pointers and counts are those of two slices, of which `out` is borrowed for this call alone, and `ended` is a
    // variable of this call.
    unsafe {
        let (at, room) = (out.as_mut_ptr(), out.len());
        ffi::psxgpu_play(mode, cell, capture.as_ptr(), capture.len(), at, room, &mut ended);
    }
    (ended.written, Error::of(ended))
}

/// The first arguments of the calls that play.
#[derive(Clone, Copy)]
pub(super) struct Request<'a> {
    pub(super) mode: u32,
    pub(super) cell: u32,
    pub(super) capture: &'a [u8],
}

impl<'a> Request<'a> {
    /// Refuses a library of another version, and a cell outside of video memory.
    fn of(capture: &'a [u8], mode: Mode) -> Result<Request<'a>, Error> {
        check_version()?;
        if matches!(mode, Mode::Pixel(x, y) if x >= COLUMNS || y >= COLUMNS) {
            return Err(Error::NoCell);
        }
        let (mode, cell) = mode.numbers();
        Ok(Request { mode, cell, capture })
    }
}

/// What ends a frame.
#[derive(Clone, Copy, Debug, PartialEq, Eq, Hash)]
pub enum FrameEnd {
    /// A flip: a control word 05h, as of `psxgpu_tool frames`. The picture after the last event follows.
    Flip,
    /// A mark: a control word 3Fh, as of `psxgpu_tool frames marks`.
    Mark,
}

/// A shown picture.
#[derive(Clone, Debug, PartialEq, Eq)]
#[non_exhaustive]
pub struct Frame {
    /// The number of the event that shows it; of the picture after the last event, one more than there are.
    pub event: u64,
    /// Its width in pixels.
    pub width: u16,
    /// Its height in pixels.
    pub height: u16,
    /// Its pixels row by row: red, green, blue and 255.
    pub rgba: Vec<u8>,
}

/// Iterates over the pictures of a capture or a snapshot that [`frames`] returns.
#[derive(Debug)]
pub struct Frames<'a> {
    gpu: Gpu,
    reader: Reader<&'a [u8]>,
    end: FrameEnd,
    /// No picture follows.
    is_over: bool,
}

/// Returns the pictures of a capture or a snapshot, one after another, each when it is asked for. Pictures without a pixel
/// are left out.
///
/// ```
/// use psxgpu::{capture::Writer, frames, FrameEnd};
///
/// let mut writer = Writer::new(Vec::new())?;
/// writer.gp1(0x0800_0001); // 320 by 240
/// writer.gp0_words(&[0x0200_00FF, 0, 0x00F0_0140]);
/// writer.frame();
/// for frame in frames(&writer.finish()?, FrameEnd::Mark)? {
///     let frame = frame?;
///     assert_eq!((frame.event, frame.width, frame.height), (5, 320, 240));
///     assert_eq!(frame.rgba[..4], [255, 0, 0, 255]);
/// }
/// # Ok::<(), Box<dyn std::error::Error>>(())
/// ```
pub fn frames(capture: &[u8], end: FrameEnd) -> Result<Frames<'_>, Error> {
    let mut gpu = Gpu::new()?;
    if capture.starts_with(TALL) {
        gpu.set_tall()?;
    }
    let reader = if capture.starts_with(SNAPSHOT) {
        gpu.load(capture)?;
        let state = gpu.save()?.len() - END_BYTES;
        let events = capture[12..20].iter().rev().fold(0, |number, &byte| number << 8 | u64::from(byte));
        Reader::after_state(&capture[state..], state as u64, events)
    } else {
        Reader::new(capture)
    };
    Ok(Frames { gpu, reader, end, is_over: false })
}

impl Frames<'_> {
    /// Returns the next picture, or `None` after the last.
    fn frame(&mut self) -> Result<Option<Frame>, Error> {
        let opcode = if self.end == FrameEnd::Flip { 0x05 } else { 0x3F };
        while let Some(record) = self.reader.next() {
            let record = record.map_err(Error::of_reading)?;
            self.gpu.record(&record, drop)?;
            if matches!(record, Record::Gp1(word) if word >> 24 & 0x3F == opcode) {
                if let Some(frame) = self.picture(self.reader.events())? {
                    return Ok(Some(frame));
                }
            }
        }
        self.is_over = true;
        if self.end == FrameEnd::Flip {
            self.picture(self.reader.events() + 1)
        } else {
            Ok(None)
        }
    }

    /// Returns the shown picture, unless it has no pixel.
    fn picture(&self, event: u64) -> Result<Option<Frame>, Error> {
        match self.gpu.shape() {
            Ok((width, height)) => Ok(Some(Frame { event, width, height, rgba: self.gpu.picture_rgba()? })),
            Err(Error::NoPicture { .. }) => Ok(None),
            Err(error) => Err(error),
        }
    }
}

impl Iterator for Frames<'_> {
    type Item = Result<Frame, Error>;

    fn next(&mut self) -> Option<Self::Item> {
        if self.is_over {
            return None;
        }
        let result = self.frame();
        self.is_over |= !matches!(result, Ok(Some(_)));
        result.transpose()
    }
}
