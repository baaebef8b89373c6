//! The output of a capture, in memory of the library.
use std::io::{self, Write};

use super::error::Error;
use super::ffi::{self, Ended, OutputHandle};
use super::playing::Request;

/// The bytes that a writer receives at once.
const PIECE: usize = 1 << 16;

/// An output that the library keeps until this is dropped. No other thread has it.
pub(super) struct Output {
    handle: OutputHandle,
    written: usize,
}

impl Output {
    /// Plays once. Returns the output, also before an error, and how playing ended.
    pub(super) fn of(request: &Request<'_>) -> (Output, Result<(), Error>) {
        let mut output = Output { handle: OutputHandle { at: std::ptr::null_mut(), open: 0 }, written: 0 };
        let Request { mode, cell, capture } = *request;
        let mut ended = Ended::default();
        // SAFETY: pointer and count are those of a slice. `output.handle` is `PSXGPU_OUTPUT_NONE`, and only `drop` frees
        // it.
        unsafe {
            let (at, length) = (capture.as_ptr(), capture.len());
            ffi::psxgpu_play_output(mode, cell, at, length, &mut output.handle, &mut ended);
        }
        output.written = ended.written;
        (output, Error::of(ended))
    }

    /// Copies the bytes from `offset` on to the start of `out`. Returns their number: 0 after the last.
    fn copy(&mut self, offset: usize, out: &mut [u8]) -> usize {
        // The call writes the handle while it runs, so it is borrowed for this call alone.
        let handle: *mut OutputHandle = &mut self.handle;
        // SAFETY: pointer and count are those of a slice, and `handle` has what `psxgpu_play_output` made.
        unsafe { ffi::psxgpu_output_copy(handle, offset, out.as_mut_ptr(), out.len()) }
    }

    /// Returns all bytes.
    pub(super) fn into_bytes(mut self) -> Vec<u8> {
        let mut bytes = vec![0; self.written];
        let count = self.copy(0, &mut bytes);
        bytes.truncate(count);
        bytes
    }

    /// Writes all bytes, in order. Returns their number.
    pub(super) fn write_to<W: Write + ?Sized>(mut self, out: &mut W) -> io::Result<usize> {
        let (mut piece, mut offset) = (vec![0; PIECE.min(self.written)], 0);
        loop {
            let count = self.copy(offset, &mut piece);
            if count == 0 {
                return Ok(offset);
            }
            out.write_all(&piece[..count])?;
            offset += count;
        }
    }
}

impl Drop for Output {
    fn drop(&mut self) {
        // SAFETY: the handle is that of `psxgpu_play_output`, or `PSXGPU_OUTPUT_NONE`, and is not used afterwards.
        unsafe { ffi::psxgpu_output_free(&mut self.handle) }
    }
}
