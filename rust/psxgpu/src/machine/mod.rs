//! The machine: libpsxgpu by its calls in C.
mod error;
mod ffi;
mod gpu;
mod output;
mod playing;
mod values;

pub use error::{text, version, Error};
pub use ffi::SAVE_ROOM;
pub use gpu::Gpu;
pub use playing::{frames, play, play_into, play_size, play_to, Frame, FrameEnd, Frames, Mode, PlayError, Refused};
pub use values::{Note, Registers};
