//! Why the library refuses a call.
use std::error;
use std::ffi::CStr;
use std::fmt;

use super::ffi::{self, Ended};
use crate::capture::{Fault, ReadError};

/// Why a call was refused. The machine is as before it. The text is that of `psxgpu_tool` without `psxgpu: `.
///
/// ```
/// use psxgpu::{Error, Gpu};
///
/// let gpu = Gpu::new()?;
/// let error = gpu.cell(1024, 0).unwrap_err();
/// assert_eq!(error, Error::NoCell);
/// assert_eq!(error.to_string(), "no such cell");
/// # Ok::<(), Error>(())
/// ```
#[derive(Clone, Debug, PartialEq, Eq)]
#[non_exhaustive]
pub enum Error {
    /// The bytes of a capture or snapshot are damaged.
    Capture(Fault),
    /// A word is not allowed in the state of a snapshot.
    BadSnapshot {
        /// The number of the event, 1.
        event: u64,
        /// The offset of the word.
        byte: u64,
        /// The word.
        word: u32,
    },
    /// A start of channel 2 in mode 3, or of a list to main memory.
    BadDma {
        /// The number of the event.
        event: u64,
    },
    /// A start of channel 2 with more words than main memory has.
    DmaTooLong {
        /// The number of the event.
        event: u64,
        /// How many.
        words: u64,
    },
    /// A list visits an address twice.
    ListLoop {
        /// The number of the event.
        event: u64,
        /// The first such address.
        node: u32,
    },
    /// The shown picture has no pixel.
    NoPicture {
        /// The number of the event in a capture, or 0.
        event: u64,
    },
    /// The caller's buffer is too small.
    NoRoom,
    /// Memory ran out.
    NoMemory,
    /// Video memory has no such cell.
    NoCell,
    /// Main memory has no words there.
    BadAddress,
    /// A channel other than 2 and 6.
    BadChannel,
    /// More events were played than a snapshot can count.
    TooManyEvents,
    /// The library is of a version that this crate was not made for.
    Version(
        /// That of the library.
        &'static str,
    ),
    /// A code that this crate does not know.
    Other(
        /// The code.
        u32,
    ),
}

impl Error {
    /// Returns the result of a call that ended so.
    pub(super) fn of(ended: Ended) -> Result<(), Error> {
        let Ended { event, place, word, code, .. } = ended;
        Err(match code {
            0 => return Ok(()),
            ffi::NOT_CAPTURE => Error::Capture(Fault::NotCapture { event, byte: place }),
            ffi::TRUNCATED => Error::Capture(Fault::Truncated { event, byte: place }),
            ffi::BAD_RECORD => Error::Capture(Fault::BadRecord { event, byte: place, word }),
            ffi::TOO_LONG => Error::Capture(Fault::TooLong { event, byte: place }),
            ffi::BAD_SNAPSHOT => Error::BadSnapshot { event, byte: place, word },
            ffi::BAD_DMA => Error::BadDma { event },
            ffi::DMA_TOO_LONG => Error::DmaTooLong { event, words: place },
            ffi::LIST_LOOP => Error::ListLoop { event, node: word },
            ffi::NO_PICTURE => Error::NoPicture { event },
            ffi::NO_ROOM => Error::NoRoom,
            ffi::NO_MEMORY => Error::NoMemory,
            ffi::NO_CELL => Error::NoCell,
            ffi::BAD_ADDRESS => Error::BadAddress,
            ffi::BAD_CHANNEL => Error::BadChannel,
            ffi::TOO_MANY_EVENTS => Error::TooManyEvents,
            code => Error::Other(code),
        })
    }

    /// Returns the result of a call that returned this code alone.
    pub(super) fn of_code(code: u32) -> Result<(), Error> {
        Error::of(Ended { code, ..Ended::default() })
    }

    /// Returns the ending that `of` makes this error of.
    fn ended(&self) -> Ended {
        let code = |code| Ended { code, ..Ended::default() };
        match *self {
            Error::Capture(Fault::NotCapture { event, byte }) => Ended { event, place: byte, ..code(ffi::NOT_CAPTURE) },
            Error::Capture(Fault::Truncated { event, byte }) => Ended { event, place: byte, ..code(ffi::TRUNCATED) },
            Error::Capture(Fault::TooLong { event, byte }) => Ended { event, place: byte, ..code(ffi::TOO_LONG) },
            Error::Capture(Fault::BadRecord { event, byte, word }) => {
                Ended { event, place: byte, word, ..code(ffi::BAD_RECORD) }
            }
            Error::BadSnapshot { event, byte, word } => Ended { event, place: byte, word, ..code(ffi::BAD_SNAPSHOT) },
            Error::BadDma { event } => Ended { event, ..code(ffi::BAD_DMA) },
            Error::DmaTooLong { event, words } => Ended { event, place: words, ..code(ffi::DMA_TOO_LONG) },
            Error::ListLoop { event, node } => Ended { event, word: node, ..code(ffi::LIST_LOOP) },
            Error::NoPicture { event } => Ended { event, ..code(ffi::NO_PICTURE) },
            Error::NoRoom => code(ffi::NO_ROOM),
            Error::NoMemory => code(ffi::NO_MEMORY),
            Error::NoCell => code(ffi::NO_CELL),
            Error::BadAddress => code(ffi::BAD_ADDRESS),
            Error::BadChannel => code(ffi::BAD_CHANNEL),
            Error::TooManyEvents => code(ffi::TOO_MANY_EVENTS),
            Error::Version(_) => code(0),
            Error::Other(number) => code(number),
        }
    }
}

impl fmt::Display for Error {
    fn fmt(&self, out: &mut fmt::Formatter<'_>) -> fmt::Result {
        if let Error::Version(version) = self {
            return write!(
                out,
                "libpsxgpu is of version {}, and this crate needs {}",
                version,
                env!("CARGO_PKG_VERSION")
            );
        }
        let mut line = [0; ffi::LINE_ROOM];
        let ended = self.ended();
        // SAFETY: `ended` is readable, and `line` has that many bytes, which the call may write.
        let length = unsafe { ffi::psxgpu_line(&ended, line.as_mut_ptr().cast(), line.len()) };
        let text = line.get(..length).unwrap_or(&line);
        out.write_str(&String::from_utf8_lossy(text))
    }
}

impl error::Error for Error {}

impl From<Fault> for Error {
    fn from(fault: Fault) -> Self {
        Error::Capture(fault)
    }
}

/// The error of a capture that is read from memory.
impl Error {
    pub(super) fn of_reading(error: ReadError) -> Error {
        match error {
            ReadError::Fault(fault) => Error::Capture(fault),
            // A slice of bytes never fails.
            ReadError::Io(_) => Error::Other(ffi::TRUNCATED),
        }
    }
}

/// Returns the library's text of a code, as `psxgpu_text` does: "list-loop" of 9, "unknown code" of a number that is none.
///
/// ```
/// assert_eq!(psxgpu::text(9), "list-loop");
/// ```
pub fn text(code: u32) -> &'static str {
    // SAFETY: the call returns a string that ends with a 0 and lives as long as the program.
    static_text(unsafe { CStr::from_ptr(ffi::psxgpu_text(code)) })
}

/// Returns the version of the library that the program runs with, as "1.0.0".
///
/// ```
/// assert!(psxgpu::version().starts_with("1."));
/// ```
pub fn version() -> &'static str {
    // SAFETY: as of `text`.
    static_text(unsafe { CStr::from_ptr(ffi::psxgpu_version()) })
}

fn static_text(text: &'static CStr) -> &'static str {
    text.to_str().unwrap_or("")
}

/// Returns an error unless the library's version has the first number of this crate's, and no lower second one.
pub(super) fn check_version() -> Result<(), Error> {
    if is_compatible(version(), env!("CARGO_PKG_VERSION")) {
        Ok(())
    } else {
        Err(Error::Version(version()))
    }
}

fn is_compatible(library: &str, wanted: &str) -> bool {
    let numbers = |text: &str| {
        let mut parts = text.split('.').map(|part| part.parse::<u32>().ok());
        Some((parts.next()??, parts.next()??))
    };
    match (numbers(library), numbers(wanted)) {
        (Some((major, minor)), Some((wanted_major, wanted_minor))) => major == wanted_major && minor >= wanted_minor,
        _ => false,
    }
}

#[cfg(test)]
mod tests {
    use super::*;

    #[test]
    fn versions() {
        for (library, is_one) in
            [("1.2.0", true), ("1.3.9", true), ("1.1.9", false), ("2.2.0", false), ("0.2.0", false)]
        {
            assert_eq!(is_compatible(library, "1.2.3"), is_one, "{}", library);
        }
        assert!(!is_compatible("", "1.2.3") && !is_compatible("one.two", "1.2.3"));
        assert_eq!(check_version(), Ok(()));
    }

    #[test]
    fn each_code_is_an_error_of_its_own_with_the_text_of_the_library() {
        for code in 1..30 {
            let ended = Ended { written: 0, event: 5, place: 6, word: 7, code };
            let error = Error::of(ended).unwrap_err();
            assert_eq!(error.ended().code, code);
            assert!(error.to_string().starts_with(text(code)), "{}", error);
        }
        let line =
            |code| Error::of(Ended { written: 0, event: 5, place: 60, word: 0x70, code }).unwrap_err().to_string();
        assert_eq!(line(2), "not-capture at event 5 byte 60");
        assert_eq!(line(4), "bad-record at event 5 byte 60 word 00000070");
        assert_eq!(line(8), "dma-too-long at event 5 words 60");
        assert_eq!(line(9), "list-loop at event 5 node 000070");
        assert_eq!(line(12), "bad-snapshot at event 5 byte 60 word 00000070");
        assert_eq!(line(99), "unknown code");
    }

    #[test]
    fn faults_have_the_same_text_without_the_library() {
        for code in [ffi::NOT_CAPTURE, ffi::TRUNCATED, ffi::BAD_RECORD, ffi::TOO_LONG] {
            let error = Error::of(Ended { written: 0, event: 5, place: 6, word: 7, code }).unwrap_err();
            match error {
                Error::Capture(fault) => assert_eq!(fault.to_string(), error.to_string()),
                other => panic!("{:?}", other),
            }
        }
    }
}
