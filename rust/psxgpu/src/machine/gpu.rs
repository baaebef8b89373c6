//! One machine.
//!
//! What `c/psxgpu.h` asks of a caller, and how each call of this file keeps it:
//!
//! - A handle is `PSXGPU_NONE` before its first call, only the library changes it, and it may be moved: `Gpu::new` makes it
//!   so, no other code sees it, and a move in Rust copies the bytes and ends the use of the old ones. `Drop` frees it.
//! - A pointer is not null and points to its count of values: pointers and counts are of one slice or of one variable,
//!   which are never null, aligned, and initialised, also where the call only writes.
//! - The arguments of a call do not overlap: what it writes is borrowed as `&mut`, or is a local variable, and the handle
//!   is in no slice of a caller.
//! - One call at a time works on a handle, calls on a `const psxgpu *` included, since they write it while they run: so the
//!   handle is in an `UnsafeCell`, which makes `Gpu` not `Sync`, and no call of the library calls back.
//! - Two machines share nothing, and no call depends on its thread: so `Gpu` is `Send`.
use std::cell::UnsafeCell;
use std::fmt;
use std::mem::size_of;
use std::ptr;

use super::error::{check_version, Error};
use super::ffi::{self, Ended, Handle, RawNote};
use super::values::{Note, Registers};
use crate::capture::{Event, Record, Start};

/// The words whose notes are fetched at a time.
const NOTES: usize = 1024;
const ROWS: usize = 512;

/// A machine: the GPU with its video memory, main memory, and DMA channels 2 and 6. It may be sent to another thread, but
/// one thread at a time uses it.
///
/// Each call that changes the machine is an event or several, unless its text says "no event". After an error the machine
/// is as before the call.
///
/// ```
/// use psxgpu::Gpu;
///
/// let mut gpu = Gpu::new()?;
/// gpu.gp0_words(&[0x0200_00FF, 0, 0x0010_0010])?; // a red fill of 16 by 16 cells
/// assert_eq!(gpu.cell(15, 15)?, 0x001F);
/// assert_eq!(gpu.status()?, 0x1480_2000);
/// # Ok::<(), psxgpu::Error>(())
/// ```
///
/// ```compile_fail
/// fn shared<T: Sync>() {}
/// shared::<psxgpu::Gpu>();
/// ```
pub struct Gpu {
    handle: UnsafeCell<Handle>,
    /// What `video_memory` returns.
    cells: Vec<u16>,
}

// SAFETY: no call depends on its thread, and two machines share nothing (c/psxgpu.h).
unsafe impl Send for Gpu {}

type Written = unsafe extern "C" fn(*const Handle, *mut u8, usize, *mut usize) -> u32;

impl Gpu {
    /// Makes a machine in its first state: memories of zeros, the registers after a reset, no event played. Fails with
    /// [`Error::Version`] if the library is not one for this crate.
    pub fn new() -> Result<Self, Error> {
        check_version()?;
        let mut handle = Handle { at: ptr::null_mut(), open: 0 };
        // SAFETY: the handle is PSXGPU_NONE.
        Error::of_code(unsafe { ffi::psxgpu_new(&mut handle) })?;
        Ok(Gpu { handle: UnsafeCell::new(handle), cells: Vec::new() })
    }

    /// Puts the machine back into its first state. No event.
    pub fn clear(&mut self) -> Result<(), Error> {
        // SAFETY: the handle is this machine's, and borrowed for this call alone; so in every call below.
        Error::of_code(unsafe { ffi::psxgpu_clear(self.handle.get()) })
    }

    /// Extends video memory from 512 to 1024 rows, as for captures of version 3. No event.
    pub fn set_tall(&mut self) -> Result<(), Error> {
        // SAFETY: see `clear`.
        Error::of_code(unsafe { ffi::psxgpu_set_tall(self.handle.get()) })
    }

    /// Writes a word to GP0 (1F801810h).
    pub fn gp0(&mut self, word: u32) -> Result<(), Error> {
        // SAFETY: see `clear`.
        Error::of_code(unsafe { ffi::psxgpu_gp0(self.handle.get(), word) })
    }

    /// Writes words to GP0, one event per word. Much faster than one call per word.
    pub fn gp0_words(&mut self, words: &[u32]) -> Result<(), Error> {
        // SAFETY: pointer and count are those of one slice.
        Error::of_code(unsafe { ffi::psxgpu_gp0_words(self.handle.get(), words.as_ptr(), words.len()) })
    }

    /// Writes words to GP0, and calls `each` with a note of each item that they complete, in order: a packet, a later
    /// segment of a polyline, or its end. Data words of a load have no note.
    ///
    /// ```
    /// let mut gpu = psxgpu::Gpu::new()?;
    /// let mut areas = Vec::new();
    /// gpu.gp0_notes(&[0xE100_0000, 0x0200_00FF, 0, 0x0010_0010], |note| areas.push(note.area))?;
    /// assert_eq!(areas, [None, Some([0, 0, 15, 15])]);
    /// # Ok::<(), psxgpu::Error>(())
    /// ```
    pub fn gp0_notes(&mut self, words: &[u32], mut each: impl FnMut(Note)) -> Result<(), Error> {
        let mut notes = vec![RawNote::default(); words.len().min(NOTES)];
        for (block, part) in words.chunks(NOTES).enumerate() {
            let mut written = 0;
            // SAFETY: there is room for a note of each word.
            Error::of_code(unsafe {
                let (room, at) = (notes.len(), notes.as_mut_ptr());
                ffi::psxgpu_gp0_notes(self.handle.get(), part.as_ptr(), part.len(), at, room, &mut written)
            })?;
            notes.iter().take(written).for_each(|raw| each(Note::of(raw, block * NOTES)));
        }
        Ok(())
    }

    /// Writes a word to GP1 (1F801814h).
    pub fn gp1(&mut self, word: u32) -> Result<(), Error> {
        // SAFETY: see `clear`.
        Error::of_code(unsafe { ffi::psxgpu_gp1(self.handle.get(), word) })
    }

    /// Reads the data port (1F801810h).
    pub fn read(&mut self) -> Result<u32, Error> {
        let mut word = 0;
        // SAFETY: `word` is a variable of this call.
        Error::of_code(unsafe { ffi::psxgpu_read(self.handle.get(), &mut word) })?;
        Ok(word)
    }

    /// Reads the status word (1F801814h).
    pub fn status(&mut self) -> Result<u32, Error> {
        let mut word = 0;
        // SAFETY: `word` is a variable of this call.
        Error::of_code(unsafe { ffi::psxgpu_status(self.handle.get(), &mut word) })?;
        Ok(word)
    }

    /// Reads the data port and drops the word.
    pub fn skip(&mut self) -> Result<(), Error> {
        // SAFETY: see `clear`.
        Error::of_code(unsafe { ffi::psxgpu_skip(self.handle.get()) })
    }

    /// Writes words to main memory from byte address `address` on, one event per word.
    pub fn ram(&mut self, address: u32, words: &[u32]) -> Result<(), Error> {
        // SAFETY: pointer and count are those of one slice.
        Error::of_code(unsafe { ffi::psxgpu_ram(self.handle.get(), address, words.as_ptr(), words.len()) })
    }

    /// Starts DMA channel 2 or 6 and moves all words.
    ///
    /// ```
    /// use psxgpu::capture::Start;
    ///
    /// let mut gpu = psxgpu::Gpu::new()?;
    /// gpu.ram(0x1000, &[0x0000_1000])?; // a list whose only node leads to itself
    /// let error = gpu.dma(2, Start { madr: 0x1000, bcr: 0, chcr: 0x0100_0401 }).unwrap_err();
    /// assert_eq!(error.to_string(), "list-loop at event 2 node 001000");
    /// # Ok::<(), psxgpu::Error>(())
    /// ```
    pub fn dma(&mut self, channel: u32, start: Start) -> Result<(), Error> {
        let Start { madr, bcr, chcr } = start;
        let mut ended = Ended::default();
        // SAFETY: `ended` is a variable of this call.
        unsafe { ffi::psxgpu_dma(self.handle.get(), channel, madr, bcr, chcr, &mut ended) };
        Error::of(ended)
    }

    /// Starts DMA channel 2 and moves nothing before the first [`turn`](Gpu::turn).
    pub fn begin(&mut self, start: Start) -> Result<(), Error> {
        let Start { madr, bcr, chcr } = start;
        let mut ended = Ended::default();
        // SAFETY: `ended` is a variable of this call.
        unsafe { ffi::psxgpu_begin(self.handle.get(), madr, bcr, chcr, &mut ended) };
        Error::of(ended)
    }

    /// Moves the next block of the running transfer, or the words of its next node.
    pub fn turn(&mut self) -> Result<(), Error> {
        // SAFETY: see `clear`.
        Error::of_code(unsafe { ffi::psxgpu_turn(self.handle.get()) })
    }

    /// Plays an event. Returns the word that it reads, if it is a Read or a Stat.
    pub fn event(&mut self, event: &Event) -> Result<Option<u32>, Error> {
        match *event {
            Event::Read => return self.read().map(Some),
            Event::Stat => return self.status().map(Some),
            Event::Ram { address, word } => self.ram(address, &[word]),
            Event::Gp0(word) => self.gp0(word),
            Event::Gp1(word) => self.gp1(word),
            Event::Dma { channel, start } => self.dma(channel, start),
            Event::Begin(start) => self.begin(start),
            Event::Turn => self.turn(),
            Event::Skip => self.skip(),
        }?;
        Ok(None)
    }

    /// Plays the events of a record. Calls `each` with each word that a Read or a Stat reads. After an error, the events
    /// before it have been played.
    ///
    /// ```
    /// use psxgpu::capture::Record;
    ///
    /// let mut gpu = psxgpu::Gpu::new()?;
    /// let mut words = Vec::new();
    /// for record in [Record::Gp1(0x1000_0007), Record::Read(2)] {
    ///     gpu.record(&record, |word| words.push(word))?;
    /// }
    /// assert_eq!(words, [2, 2]); // the number of the GPU's kind, twice
    /// # Ok::<(), psxgpu::Error>(())
    /// ```
    pub fn record(&mut self, record: &Record, mut each: impl FnMut(u32)) -> Result<(), Error> {
        match record {
            Record::Gp0(words) => self.gp0_words(words),
            Record::Ram { address, words } => self.ram(*address, words),
            other => other.events().try_for_each(|event| {
                self.event(&event)?.into_iter().for_each(&mut each);
                Ok(())
            }),
        }
    }

    /// Returns the cells of video memory, row by row of 1024: 512 rows, or 1024. No event.
    ///
    /// ```
    /// let mut gpu = psxgpu::Gpu::new()?;
    /// gpu.gp0_words(&[0x02FF_0000, 0, 0x0001_0010])?;
    /// assert_eq!(gpu.video_memory()?.iter().filter(|&&cell| cell == 0x7C00).count(), 16);
    /// # Ok::<(), psxgpu::Error>(())
    /// ```
    pub fn video_memory(&mut self) -> Result<&[u16], Error> {
        self.cells.resize(ffi::VRAM_ROOM / size_of::<u16>(), 0);
        let mut written = 0;
        // SAFETY: the pointer and the length in bytes are those of the cells, and bytes of any value are cells.
        Error::of_code(unsafe {
            let at = self.cells.as_mut_ptr().cast();
            ffi::psxgpu_vram(self.handle.get(), at, ffi::VRAM_ROOM, &mut written)
        })?;
        let cells = &mut self.cells[..written / size_of::<u16>()];
        if cfg!(target_endian = "big") {
            cells.iter_mut().for_each(|cell| *cell = u16::from_le(*cell));
        }
        Ok(cells)
    }

    /// Writes video memory as `psxgpu_tool vram` does, the low byte of each cell first. Returns the number of bytes:
    /// 1,048,576, or 2,097,152 for 1024 rows. No event.
    pub fn vram_into(&self, out: &mut [u8]) -> Result<usize, Error> {
        self.write_into(ffi::psxgpu_vram, out)
    }

    /// Returns the cell in a column, 0 to 1023, and a row, 0 to 511 or 1023. No event.
    pub fn cell(&self, x: u32, y: u32) -> Result<u16, Error> {
        let mut cell = 0;
        // SAFETY: `cell` is a variable of this call.
        Error::of_code(unsafe { ffi::psxgpu_cell(self.handle.get(), x, y, &mut cell) })?;
        Ok(cell)
    }

    /// Returns the rows of video memory: 512 or 1024. No event.
    pub fn rows(&self) -> usize {
        match self.cell(0, ROWS as u32) {
            Ok(_) => 2 * ROWS,
            Err(_) => ROWS,
        }
    }

    /// Returns width and height of the shown picture in pixels. Fails with [`Error::NoPicture`]. No event.
    pub fn shape(&self) -> Result<(u16, u16), Error> {
        let (mut width, mut height) = (0, 0);
        // SAFETY: both are variables of this call.
        Error::of_code(unsafe { ffi::psxgpu_shape(self.handle.get(), &mut width, &mut height) })?;
        Ok((width, height))
    }

    /// Writes the shown picture as PPM. Returns the number of bytes. `3 * width * height + 32` bytes always suffice. No
    /// event.
    pub fn picture_into(&self, out: &mut [u8]) -> Result<usize, Error> {
        self.write_into(ffi::psxgpu_picture, out)
    }

    /// Writes the shown picture row by row: red, green, blue and 255 per pixel. Returns the number of bytes, `4 * width *
    /// height`. No event.
    ///
    /// ```
    /// let mut gpu = psxgpu::Gpu::new()?;
    /// gpu.gp1(0x0800_0001)?; // 320 by 240
    /// gpu.gp0_words(&[0x0200_00FF, 0, 0x00F0_0140])?;
    /// let mut pixels = vec![0; 4 * 640 * 480];
    /// assert_eq!(gpu.picture_rgba_into(&mut pixels)?, 4 * 320 * 240);
    /// assert_eq!(pixels[..4], [255, 0, 0, 255]);
    /// # Ok::<(), psxgpu::Error>(())
    /// ```
    pub fn picture_rgba_into(&self, out: &mut [u8]) -> Result<usize, Error> {
        self.write_into(ffi::psxgpu_picture_rgba, out)
    }

    /// Returns the shown picture as PPM. No event.
    pub fn picture(&self) -> Result<Vec<u8>, Error> {
        let (width, height) = self.shape()?;
        self.written(ffi::psxgpu_picture, 3 * usize::from(width) * usize::from(height) + 32)
    }

    /// Returns the shown picture, four bytes per pixel, as [`picture_rgba_into`](Gpu::picture_rgba_into). No event.
    pub fn picture_rgba(&self) -> Result<Vec<u8>, Error> {
        let (width, height) = self.shape()?;
        self.written(ffi::psxgpu_picture_rgba, 4 * usize::from(width) * usize::from(height))
    }

    /// Returns the registers. No event.
    pub fn registers(&self) -> Result<Registers, Error> {
        let mut words = [0; ffi::REGISTER_WORDS];
        // SAFETY: `words` is a variable of this call, with that many words.
        Error::of_code(unsafe { ffi::psxgpu_registers(self.handle.get(), words.as_mut_ptr(), words.len()) })?;
        Ok(Registers::of(words))
    }

    /// Returns the machine as a snapshot, which [`load`](Gpu::load) and every command of `psxgpu_tool` that plays take. No
    /// event.
    ///
    /// ```
    /// let mut gpu = psxgpu::Gpu::new()?;
    /// let before = gpu.save()?;
    /// gpu.gp0_words(&[0x0200_00FF, 0, 0x0010_0010])?;
    /// gpu.load(&before)?; // a step back
    /// assert_eq!(gpu.cell(0, 0)?, 0);
    /// # Ok::<(), psxgpu::Error>(())
    /// ```
    pub fn save(&self) -> Result<Vec<u8>, Error> {
        self.written(ffi::psxgpu_save, ffi::SAVE_ROOM)
    }

    /// Writes the machine as a snapshot. Returns the number of bytes. [`SAVE_ROOM`](crate::SAVE_ROOM) bytes always suffice.
    /// No event.
    pub fn save_into(&self, out: &mut [u8]) -> Result<usize, Error> {
        self.write_into(ffi::psxgpu_save, out)
    }

    /// Makes the machine the state of a snapshot, or the first state of a capture. Records are not read. No event.
    pub fn load(&mut self, bytes: &[u8]) -> Result<(), Error> {
        let mut ended = Ended::default();
        // SAFETY: pointer and count are those of one slice, and `ended` is a variable of this call.
        unsafe { ffi::psxgpu_load(self.handle.get(), bytes.as_ptr(), bytes.len(), &mut ended) };
        Error::of(ended)
    }

    fn write_into(&self, call: Written, out: &mut [u8]) -> Result<usize, Error> {
        let mut written = 0;
        // SAFETY: `call` is one of c/psxgpu.h, pointer and count are those of one slice.
        Error::of_code(unsafe { call(self.handle.get(), out.as_mut_ptr(), out.len(), &mut written) })?;
        Ok(written)
    }

    /// Returns what a call writes, at most `room` bytes.
    fn written(&self, call: Written, room: usize) -> Result<Vec<u8>, Error> {
        let mut out = vec![0; room];
        let written = self.write_into(call, &mut out)?;
        out.truncate(written);
        Ok(out)
    }
}

impl Drop for Gpu {
    fn drop(&mut self) {
        // SAFETY: the handle is this machine's, and nobody uses it any more.
        unsafe { ffi::psxgpu_free(self.handle.get()) }
    }
}

impl fmt::Debug for Gpu {
    fn fmt(&self, out: &mut fmt::Formatter<'_>) -> fmt::Result {
        out.debug_struct("Gpu").field("rows", &self.rows()).finish_non_exhaustive()
    }
}
