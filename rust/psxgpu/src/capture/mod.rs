//! Captures: what reaches the GPU, written and read in safe Rust, without the library.
//!
//! ```
//! use psxgpu::capture::{Event, Reader, Writer};
//!
//! let mut writer = Writer::new(Vec::new())?;
//! writer.gp0_words(&[0x0200_00FF, 0, 0x0010_0010]); // a red fill of 16 by 16 cells
//! writer.stat();
//! let bytes = writer.finish()?;
//!
//! let mut events = Vec::new();
//! for record in Reader::new(&bytes[..]) {
//!     events.extend(record?.events());
//! }
//! assert_eq!(events.len(), 4);
//! assert_eq!(events[3], Event::Stat);
//! # Ok::<(), Box<dyn std::error::Error>>(())
//! ```
mod memory;
mod reader;
mod record;
mod writer;

pub use reader::{Fault, ReadError, Reader};
pub use record::{Event, Record, Start, CAPTURE_MOST, RAM_BYTES};
pub use writer::{Unplayable, Writer};
