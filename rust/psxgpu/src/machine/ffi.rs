//! The calls of `c/psxgpu.h`, by hand: names, types and order of fields are those of the header. `psxgpu_play_to` is
//! left out: a panic cannot pass through C.
use std::os::raw::{c_char, c_void};

/// `PSXGPU_LINE_ROOM`.
pub const LINE_ROOM: usize = 96;
/// `PSXGPU_VRAM_ROOM`.
pub const VRAM_ROOM: usize = 2_097_152;
/// `PSXGPU_SAVE_ROOM`.
pub const SAVE_ROOM: usize = 4_194_564;
/// `PSXGPU_REGISTER_WORDS`.
pub const REGISTER_WORDS: usize = 13;

/// The codes.
pub const NOT_CAPTURE: u32 = 2;
pub const TRUNCATED: u32 = 3;
pub const BAD_RECORD: u32 = 4;
pub const TOO_LONG: u32 = 5;
pub const BAD_DMA: u32 = 7;
pub const DMA_TOO_LONG: u32 = 8;
pub const LIST_LOOP: u32 = 9;
pub const NO_PICTURE: u32 = 10;
pub const NO_ROOM: u32 = 11;
pub const BAD_SNAPSHOT: u32 = 12;
pub const NO_MEMORY: u32 = 13;
pub const NO_CELL: u32 = 17;
pub const BAD_ADDRESS: u32 = 18;
pub const BAD_CHANNEL: u32 = 19;
pub const TOO_MANY_EVENTS: u32 = 20;

/// `psxgpu`: a machine, or none.
#[repr(C)]
pub struct Handle {
    pub at: *mut c_void,
    pub open: u32,
}

/// `psxgpu_output`: the output of a capture that was played, or none.
#[repr(C)]
pub struct OutputHandle {
    pub at: *mut c_void,
    pub open: u32,
}

/// `psxgpu_ended`: how a call ended.
#[repr(C)]
#[derive(Clone, Copy, Default)]
pub struct Ended {
    pub written: usize,
    pub event: u64,
    pub place: u64,
    pub word: u32,
    pub code: u32,
}

/// `psxgpu_note`: what one item of GP0 words did.
#[repr(C)]
#[derive(Clone, Copy, Default)]
pub struct RawNote {
    pub event: u64,
    pub word: usize,
    pub head: u32,
    pub class_number: u16,
    pub has_area: u16,
    pub x1: i32,
    pub y1: i32,
    pub x2: i32,
    pub y2: i32,
}

extern "C" {
    pub fn psxgpu_version() -> *const c_char;
    pub fn psxgpu_text(code: u32) -> *const c_char;
    pub fn psxgpu_line(ended: *const Ended, out: *mut c_char, room: usize) -> usize;
    pub fn psxgpu_new(gpu: *mut Handle) -> u32;
    pub fn psxgpu_free(gpu: *mut Handle);
    pub fn psxgpu_clear(gpu: *mut Handle) -> u32;
    pub fn psxgpu_set_tall(gpu: *mut Handle) -> u32;
    pub fn psxgpu_gp0(gpu: *mut Handle, word: u32) -> u32;
    pub fn psxgpu_gp0_words(gpu: *mut Handle, words: *const u32, count: usize) -> u32;
    pub fn psxgpu_gp0_notes(
        gpu: *mut Handle,
        words: *const u32,
        count: usize,
        notes: *mut RawNote,
        room: usize,
        written: *mut usize,
    ) -> u32;
    pub fn psxgpu_gp1(gpu: *mut Handle, word: u32) -> u32;
    pub fn psxgpu_read(gpu: *mut Handle, word: *mut u32) -> u32;
    pub fn psxgpu_status(gpu: *mut Handle, word: *mut u32) -> u32;
    pub fn psxgpu_skip(gpu: *mut Handle) -> u32;
    pub fn psxgpu_ram(gpu: *mut Handle, address: u32, words: *const u32, count: usize) -> u32;
    pub fn psxgpu_dma(gpu: *mut Handle, channel: u32, madr: u32, bcr: u32, chcr: u32, ended: *mut Ended) -> u32;
    pub fn psxgpu_begin(gpu: *mut Handle, madr: u32, bcr: u32, chcr: u32, ended: *mut Ended) -> u32;
    pub fn psxgpu_turn(gpu: *mut Handle) -> u32;
    pub fn psxgpu_vram(gpu: *const Handle, out: *mut u8, room: usize, written: *mut usize) -> u32;
    pub fn psxgpu_cell(gpu: *const Handle, x: u32, y: u32, cell: *mut u16) -> u32;
    pub fn psxgpu_shape(gpu: *const Handle, width: *mut u16, height: *mut u16) -> u32;
    pub fn psxgpu_picture(gpu: *const Handle, out: *mut u8, room: usize, written: *mut usize) -> u32;
    pub fn psxgpu_picture_rgba(gpu: *const Handle, out: *mut u8, room: usize, written: *mut usize) -> u32;
    pub fn psxgpu_registers(gpu: *const Handle, words: *mut u32, room: usize) -> u32;
    pub fn psxgpu_save(gpu: *const Handle, out: *mut u8, room: usize, written: *mut usize) -> u32;
    pub fn psxgpu_load(gpu: *mut Handle, bytes: *const u8, length: usize, ended: *mut Ended) -> u32;
    pub fn psxgpu_play(
        mode: u32,
        cell: u32,
        capture: *const u8,
        length: usize,
        out: *mut u8,
        room: usize,
        ended: *mut Ended,
    ) -> u32;
    pub fn psxgpu_play_size(mode: u32, cell: u32, capture: *const u8, length: usize, ended: *mut Ended) -> u32;
    pub fn psxgpu_play_output(
        mode: u32,
        cell: u32,
        capture: *const u8,
        length: usize,
        output: *mut OutputHandle,
        ended: *mut Ended,
    ) -> u32;
    pub fn psxgpu_output_copy(output: *const OutputHandle, offset: usize, out: *mut u8, room: usize) -> usize;
    pub fn psxgpu_output_free(output: *mut OutputHandle);
}
