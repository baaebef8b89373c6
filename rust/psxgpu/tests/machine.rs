//! The machine: what a call returns, what is refused, and that a refused call changes nothing.
use psxgpu::capture::{Event, Fault, Reader, Record, Start, Writer};
use psxgpu::{frames, play, play_into, play_size, play_to, Error, FrameEnd, Gpu, Mode, PlayError, SAVE_ROOM};
use std::io::{self, Write};

const FILL: [u32; 3] = [0x0200_00FF, 0, 0x0010_0010];
const LIST: u32 = 0x0100_0401;

/// Three frames of 320 by 240, each of one colour, marked and flipped.
fn film() -> Vec<u8> {
    let mut writer = Writer::new(Vec::new()).unwrap();
    writer.gp1(0x0800_0001);
    for color in [0x00_00FF, 0x00_FF00, 0xFF_0000] {
        writer.gp0_words(&[0x0200_0000 | color, 0, 240 << 16 | 320]);
        writer.gp1(0x0500_0000);
        writer.frame();
    }
    writer.finish().unwrap()
}

#[test]
fn a_machine_goes_to_another_thread_and_back() {
    let mut gpu = Gpu::new().unwrap();
    gpu = std::thread::spawn(move || {
        gpu.gp0_words(&FILL).unwrap();
        gpu
    })
    .join()
    .unwrap();
    assert_eq!((gpu.cell(15, 15), gpu.cell(16, 15)), (Ok(0x001F), Ok(0)));
}

#[test]
fn machines_share_nothing() {
    let mut threads = Vec::new();
    for k in 0..4 {
        threads.push(std::thread::spawn(move || {
            let mut gpu = Gpu::new().unwrap();
            gpu.gp0_words(&[0x0200_0000 + 8 * k, 0, 0x0010_0010]).unwrap();
            gpu.cell(0, 0).unwrap()
        }));
    }
    let cells: Vec<_> = threads.into_iter().map(|thread| thread.join().unwrap()).collect();
    assert_eq!(cells, [0, 1, 2, 3]);
}

#[test]
fn what_is_refused_leaves_the_machine_as_it_is() {
    let mut gpu = Gpu::new().unwrap();
    gpu.gp0_words(&FILL).unwrap();
    gpu.ram(0x1000, &[0x1000]).unwrap();
    let before = gpu.save().unwrap();
    let start = |madr, bcr, chcr| Start { madr, bcr, chcr };
    assert_eq!(gpu.dma(2, start(0x1000, 0, LIST)), Err(Error::ListLoop { event: 5, node: 0x1000 }));
    assert_eq!(gpu.dma(2, start(0, 0, 0x0100_0601)), Err(Error::BadDma { event: 5 }));
    assert_eq!(gpu.dma(2, start(0, 0x0009_0000, 0x0100_0201)), Err(Error::DmaTooLong { event: 5, words: 589_824 }));
    assert_eq!(gpu.dma(3, start(0, 0, 0)), Err(Error::BadChannel));
    assert_eq!(gpu.begin(start(0, 0, 0x0100_0600)), Err(Error::BadDma { event: 5 }));
    for (address, count) in [(2, 1), (0x1F_FFFC, 2), (0x20_0000, 1), (u32::MAX - 3, 1)] {
        assert_eq!(gpu.ram(address, &[0; 2][..count]), Err(Error::BadAddress));
    }
    assert_eq!((gpu.cell(1024, 0), gpu.cell(0, 512)), (Err(Error::NoCell), Err(Error::NoCell)));
    assert_eq!(gpu.load(b"PSXGPUS2"), Err(Error::Capture(Fault::NotCapture { event: 1, byte: 7 })));
    assert_eq!(gpu.load(&before[..400]), Err(Error::Capture(Fault::Truncated { event: 1, byte: 400 })));
    let mut bad = before.clone();
    bad[8] = 1;
    assert_eq!(gpu.load(&bad), Err(Error::BadSnapshot { event: 1, byte: 8, word: 0x201 }));
    assert_eq!(gpu.save().unwrap(), before);
}

#[test]
fn buffers_that_are_too_small_stay() {
    let mut gpu = Gpu::new().unwrap();
    gpu.gp1(0x0800_0001).unwrap();
    gpu.gp0_words(&FILL).unwrap();
    let due = [1_048_576, 15 + 3 * 320 * 240, 4 * 320 * 240, gpu.save().unwrap().len()];
    for (k, &due) in due.iter().enumerate() {
        let call = |out: &mut [u8]| match k {
            0 => gpu.vram_into(out),
            1 => gpu.picture_into(out),
            2 => gpu.picture_rgba_into(out),
            _ => gpu.save_into(out),
        };
        let mut out = vec![0x5A; due + 8];
        assert_eq!(call(&mut []), Err(Error::NoRoom));
        assert_eq!(call(&mut out[..due - 1]), Err(Error::NoRoom));
        assert!(out.iter().all(|&byte| byte == 0x5A));
        assert_eq!(call(&mut out[..due]), Ok(due));
        assert!(out[due..].iter().all(|&byte| byte == 0x5A));
    }
    assert!(due[3] <= SAVE_ROOM);
}

#[test]
fn no_words_are_no_event() {
    let mut gpu = Gpu::new().unwrap();
    let before = gpu.save().unwrap();
    gpu.gp0_words(&[]).unwrap();
    gpu.gp0_notes(&[], |note| panic!("{:?}", note)).unwrap();
    gpu.ram(0, &[]).unwrap();
    assert_eq!(gpu.save().unwrap(), before);
}

#[test]
fn notes_of_many_words() {
    let mut gpu = Gpu::new().unwrap();
    let words: Vec<u32> = FILL.iter().cycle().take(3 * 1000).copied().collect();
    let mut notes = Vec::new();
    gpu.gp0_notes(&words, |note| notes.push(note)).unwrap();
    assert_eq!(notes.len(), 1000);
    for (k, note) in notes.iter().enumerate() {
        assert_eq!((note.event, note.word), (3 * k as u64 + 3, 3 * k + 2));
        assert_eq!((note.head, note.class, note.area), (FILL[0], 0, Some([0, 0, 15, 15])));
    }
}

#[test]
fn tall_video_memory() {
    let mut gpu = Gpu::new().unwrap();
    assert_eq!((gpu.rows(), gpu.video_memory().unwrap().len()), (512, 1024 * 512));
    gpu.set_tall().unwrap();
    gpu.gp0_words(&[0x0200_00FF, 1000 << 16, 0x0001_0010]).unwrap();
    let cells = gpu.video_memory().unwrap();
    assert_eq!((cells.len(), cells[1024 * 1000], cells[1024 * 1001]), (1024 * 1024, 0x001F, 0));
    assert_eq!(gpu.rows(), 1024);
    gpu.clear().unwrap();
    assert_eq!((gpu.rows(), gpu.cell(0, 0)), (512, Ok(0)));
}

#[test]
fn frames_are_the_pictures_of_the_program() {
    let film = film();
    let found: Vec<_> = frames(&film, FrameEnd::Flip).unwrap().map(Result::unwrap).collect();
    let events: Vec<_> = found.iter().map(|frame| frame.event).collect();
    assert_eq!(events, [5, 10, 15, 17]);
    let firsts: Vec<_> = found.iter().map(|frame| &frame.rgba[..4]).collect();
    assert_eq!(firsts, [[255, 0, 0, 255], [0, 255, 0, 255], [0, 0, 255, 255], [0, 0, 255, 255]]);
    let marks: Vec<_> = frames(&film, FrameEnd::Mark).unwrap().map(|frame| frame.unwrap().event).collect();
    assert_eq!(marks, [6, 11, 16]);
    let pictures = play(&film, Mode::FramesMarks).unwrap();
    assert_eq!(pictures.len(), 3 * (15 + 3 * 320 * 240));
}

#[test]
fn frames_of_a_snapshot_continue_its_events() {
    let film = film();
    let mut gpu = Gpu::new().unwrap();
    let mut played = 0;
    for event in Reader::new(&film[..]).flat_map(|record| record.unwrap().events().collect::<Vec<_>>()).take(6) {
        gpu.event(&event).unwrap();
        played += 1;
    }
    assert_eq!(played, 6);
    let mut snapshot = gpu.save().unwrap();
    let end = snapshot.len() - 4;
    snapshot.splice(end.., film[8 + 8 + 16 + 8 + 8..].iter().copied());
    let events: Vec<_> = frames(&snapshot, FrameEnd::Flip).unwrap().map(|frame| frame.unwrap().event).collect();
    assert_eq!(events, [10, 15, 17]);
    assert_eq!(play(&snapshot, Mode::Vram), play(&film, Mode::Vram));
}

#[test]
fn a_damaged_film_has_the_frames_before() {
    let film = film();
    let mut found = frames(&film[..film.len() - 20], FrameEnd::Flip).unwrap();
    assert_eq!(found.by_ref().take_while(Result::is_ok).count(), 2);
    assert!(found.next().is_none());
    let last = frames(&film[..film.len() - 20], FrameEnd::Flip).unwrap().last().unwrap();
    assert_eq!(last.unwrap_err(), Error::Capture(Fault::Truncated { event: 15, byte: film.len() as u64 - 20 }));
    assert!(frames(b"PSXGPUS1", FrameEnd::Flip).is_err());
    assert_eq!(frames(b"", FrameEnd::Mark).unwrap().count(), 1);
}

/// A writer that takes at most 1000 bytes of a write, and fails after `most`.
struct Narrow {
    taken: Vec<u8>,
    most: usize,
}

impl Write for Narrow {
    fn write(&mut self, bytes: &[u8]) -> io::Result<usize> {
        let count = bytes.len().min(1000).min(self.most - self.taken.len());
        self.taken.extend(&bytes[..count]);
        Ok(count)
    }

    fn flush(&mut self) -> io::Result<()> {
        Ok(())
    }
}

#[test]
fn a_size_and_a_writer_have_the_output() {
    let film = film();
    for mode in [Mode::Play, Mode::Vram, Mode::Shot, Mode::Report, Mode::Frames, Mode::SumsMarks, Mode::Pixel(9, 9)] {
        let output = play(&film, mode).unwrap();
        let mut narrow = Narrow { taken: Vec::new(), most: usize::MAX };
        assert_eq!(play_size(&film, mode), (output.len(), Ok(())));
        assert_eq!(play_to(&film, mode, &mut narrow).unwrap(), output.len());
        assert!(narrow.taken == output, "{:?}", mode);
    }
}

#[test]
fn a_writer_that_fails_has_the_bytes_before() {
    let film = film();
    let output = play(&film, Mode::Frames).unwrap();
    for most in [0, 1, 70_000, output.len() - 1] {
        let mut narrow = Narrow { taken: Vec::new(), most };
        match play_to(&film, Mode::Frames, &mut narrow) {
            Err(PlayError::Io(error)) => assert_eq!(error.kind(), io::ErrorKind::WriteZero),
            other => panic!("{:?}", other),
        }
        assert!(narrow.taken == output[..most]);
    }
}

#[test]
fn a_refused_capture_is_written_up_to_the_refusal() {
    let film = film();
    let cut = &film[..film.len() - 20];
    let refused = play(cut, Mode::Frames).unwrap_err();
    let mut written = Vec::new();
    match play_to(cut, Mode::Frames, &mut written) {
        Err(PlayError::Refused(error)) => assert_eq!(error, refused.error),
        other => panic!("{:?}", other),
    }
    assert!(!written.is_empty() && written == refused.output);
    assert_eq!(play_size(cut, Mode::Frames), (written.len(), Err(refused.error)));
    assert_eq!(play_size(cut, Mode::Pixel(0, 1024)), (0, Err(Error::NoCell)));
}

#[test]
fn output_that_is_longer_than_a_piece() {
    let mut writer = Writer::new(Vec::new()).unwrap();
    writer.gp1(0x0800_0001);
    (0..40).for_each(|_| writer.gp1(0x0500_0000));
    let film = writer.finish().unwrap();
    assert_eq!(play(&film, Mode::Frames).unwrap().len(), 41 * (15 + 3 * 320 * 240));
}

#[test]
fn modes_and_cells() {
    let film = film();
    let text = |mode| String::from_utf8(play(&film, mode).unwrap()).unwrap();
    assert_eq!(text(Mode::List).lines().next(), Some("4 fill 020000ff 0 0 319 239"));
    assert_eq!(text(Mode::Pixel(319, 239)).lines().nth(1), Some("9 fill 0200ff00 001f 03e0"));
    assert_eq!(text(Mode::Sums).lines().count(), 5);
    let refused = play(&film, Mode::Pixel(1024, 0)).unwrap_err();
    assert_eq!((refused.error, refused.output), (Error::NoCell, vec![]));
    assert_eq!(play_into(&film, Mode::Vram, &mut [0; 16]), (16, Err(Error::NoRoom)));
}

#[test]
fn turns_and_tables_by_records() {
    let mut gpu = Gpu::new().unwrap();
    let begin = Record::Begin(Start { madr: 0x1000, bcr: 0x0001_0003, chcr: 0x0100_0201 });
    for record in [Record::Ram { address: 0x1000, words: FILL.to_vec() }, begin, Record::Turn(1)] {
        gpu.record(&record, |word| panic!("{:08x}", word)).unwrap();
    }
    assert_eq!(gpu.cell(0, 0), Ok(0x001F));
    assert_eq!(gpu.event(&Event::Stat), Ok(Some(0x1480_2000)));
    let table = Event::Dma { channel: 6, start: Start { madr: 0x2004, bcr: 2, chcr: 0x1100_0002 } };
    assert_eq!(gpu.event(&table), Ok(None));
    assert_eq!(gpu.event(&Event::Dma { channel: 2, start: Start { madr: 0x2004, bcr: 0, chcr: LIST } }), Ok(None));
}
