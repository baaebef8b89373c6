//! An emulator's loop that records and draws: `cargo run --example embed -- frames.capture` records three frames and says
//! what is shown after each.
use std::env;
use std::error::Error;
use std::fs::File;

use psxgpu::capture::Writer;
use psxgpu::Gpu;

/// The emulator's bus: the machine draws, and the writer records.
struct Bus {
    gpu: Gpu,
    recording: Writer<File>,
}

impl Bus {
    fn write(&mut self, address: u32, word: u32) -> Result<(), psxgpu::Error> {
        if address == 0x1F80_1810 {
            self.recording.gp0(word);
            self.gpu.gp0(word)
        } else {
            self.recording.gp1(word);
            self.gpu.gp1(word)
        }
    }

    fn vertical_blank(&mut self) -> Result<(), psxgpu::Error> {
        self.recording.frame();
        let (width, height) = self.gpu.shape()?;
        let pixels = self.gpu.picture_rgba()?;
        println!("{} by {}, first pixel {:02x?}", width, height, &pixels[..3]);
        Ok(())
    }
}

fn main() -> Result<(), Box<dyn Error>> {
    let path = env::args().nth(1).ok_or("name the capture to write")?;
    let mut bus = Bus { gpu: Gpu::new()?, recording: Writer::new(File::create(path)?)? };
    bus.write(0x1F80_1814, 0x0800_0001)?; // 320 by 240
    for color in [0x00_00FF, 0x00_FF00, 0xFF_0000] {
        for word in [0x0200_0000 | color, 0, 240 << 16 | 320] {
            bus.write(0x1F80_1810, word)?; // a program of the console: a screen of one colour
        }
        bus.vertical_blank()?;
    }
    bus.recording.finish()?;
    Ok(())
}
