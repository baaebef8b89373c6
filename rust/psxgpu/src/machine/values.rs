//! Results of a machine: notes and registers.
use super::ffi::{RawNote, REGISTER_WORDS};

/// What one item of GP0 words did: a packet, a vertex of a polyline after its second, or the end of a polyline. The fields
/// of a line of `psxgpu_tool list`.
#[derive(Clone, Copy, Debug, PartialEq, Eq, Hash)]
pub struct Note {
    /// The number of the event that completed it.
    pub event: u64,
    /// The index of its last word in the call.
    pub word: usize,
    /// Its command, or the end word of a polyline.
    pub head: u32,
    /// 0 to 7: the top three bits of the command. 8: the end of a polyline.
    pub class: u16,
    /// The first column and row, and the last column and row, of the cells that it may change.
    pub area: Option<[i32; 4]>,
}

impl Note {
    /// Returns a note of the library. `before`: the words of the call before those that the library was given.
    pub(super) fn of(raw: &RawNote, before: usize) -> Note {
        let area = if raw.has_area == 1 { Some([raw.x1, raw.y1, raw.x2, raw.y2]) } else { None };
        Note { event: raw.event, word: before + raw.word, head: raw.head, class: raw.class_number, area }
    }
}

/// The registers.
///
/// ```
/// let mut gpu = psxgpu::Gpu::new()?;
/// gpu.gp0_words(&[0xE300_0000, 0xE407_FFFF])?;
/// assert_eq!(gpu.registers()?.area_end, 0x7FFFF);
/// # Ok::<(), psxgpu::Error>(())
/// ```
#[derive(Clone, Copy, Debug, PartialEq, Eq, Hash)]
#[non_exhaustive]
pub struct Registers {
    /// The value of E1h.
    pub draw_mode: u32,
    /// The value of E2h.
    pub texture_window: u32,
    /// The value of E3h.
    pub area_start: u32,
    /// The value of E4h.
    pub area_end: u32,
    /// The value of E5h.
    pub offset: u32,
    /// The value of E6h.
    pub mask_setting: u32,
    /// Bit 0: interrupt. Bit 1: display off.
    pub flags: u32,
    /// The DMA direction.
    pub dma_direction: u32,
    /// The start of the display area.
    pub display_start: u32,
    /// The horizontal range of the display.
    pub horizontal_range: u32,
    /// The vertical range of the display.
    pub vertical_range: u32,
    /// The mode of the display.
    pub display_mode: u32,
    /// What a read of the data port returns without an open store.
    pub latch: u32,
}

impl Registers {
    pub(super) fn of(words: [u32; REGISTER_WORDS]) -> Registers {
        Registers {
            draw_mode: words[0],
            texture_window: words[1],
            area_start: words[2],
            area_end: words[3],
            offset: words[4],
            mask_setting: words[5],
            flags: words[6],
            dma_direction: words[7],
            display_start: words[8],
            horizontal_range: words[9],
            vertical_range: words[10],
            display_mode: words[11],
            latch: words[12],
        }
    }
}
