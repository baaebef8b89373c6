//! The suite: the machine passes every test, and an emulator with a fault fails the tests of its rule.
use psxgpu::capture::Event;
use psxgpu::conformance::{check, tests, Answer, Picture, Shown, Suite, Test, Verdict};
use psxgpu::{Error, Gpu};

/// Plays events on the machine. Returns what it has read, drawn and shown.
fn machine(test: &Test, events: &[Event], change: impl Fn(u32) -> u32) -> Answer {
    let mut gpu = Gpu::new().unwrap();
    if test.rows() == 1024 {
        gpu.set_tall().unwrap();
    }
    let mut words = Vec::new();
    for event in events {
        let event = match *event {
            Event::Gp0(word) => Event::Gp0(change(word)),
            event => event,
        };
        words.extend(gpu.event(&event).unwrap());
    }
    Answer { cells: gpu.video_memory().unwrap().to_vec(), words: Some(words), picture: shown(&gpu) }
}

fn shown(gpu: &Gpu) -> Shown {
    match gpu.shape() {
        Ok((width, height)) => {
            let pixels = gpu.picture_rgba().unwrap().chunks_exact(4).flat_map(|pixel| pixel[..3].to_vec()).collect();
            Shown::Picture(Picture { width, height, pixels })
        }
        Err(Error::NoPicture { .. }) => Shown::Nothing,
        Err(error) => panic!("{}", error),
    }
}

fn nothing(_: &[Event]) -> Vec<u16> {
    vec![0; 1024 * 512]
}

#[test]
fn the_machine_passes_each_test_with_its_words_and_its_picture() {
    for suite in [Suite::new().strict(), Suite::new().strict().by_ports()] {
        let report = suite.run_each(|test, events| machine(test, events, |word| word));
        assert!(report.is_success(), "{}", report);
        assert_eq!((report.count(Verdict::Passed), report.in_part()), (tests().len(), 0));
    }
}

#[test]
fn a_closure_of_cells_alone() {
    let mut asked = 0;
    check(|events| {
        asked += 1;
        let mut gpu = Gpu::new().unwrap();
        for event in events {
            gpu.event(event).unwrap();
        }
        gpu.video_memory().unwrap().to_vec()
    });
    assert_eq!(asked, tests().len());
}

#[test]
fn words_of_the_ports_alone() {
    let is_of_ports =
        |event: &Event| matches!(event, Event::Gp0(_) | Event::Gp1(_) | Event::Read | Event::Stat | Event::Skip);
    let all = tests();
    assert!(all.iter().all(|test| test.port_events().iter().all(is_of_ports)));
    assert!(all.iter().all(|test| test.needs_dma() || test.events() == test.port_events()));
    assert_eq!(all.iter().filter(|test| test.needs_dma()).count(), 41);
}

#[test]
fn a_fault_is_told_with_its_rule() {
    // An emulator that takes no dither bit.
    let change = |word: u32| if word >> 24 == 0xE1 { word & !0x200 } else { word };
    let suite = Suite::new().only(&["dither/table", "fills"]);
    let report = suite.run_each(|test, events| machine(test, events, change));
    let text = report.to_string();
    assert!(!report.is_success());
    assert_eq!(report.count(Verdict::Failed), 1, "{}", text);
    let rule =
        "failed  dither/table: A shaded polygon adds the table of 4 by 4 to each channel before the division by 8.\n";
    assert!(text.starts_with(rule), "{}", text);
    let cells = "24 cells, the first at (3, 0): yours 2108 (8 8 8), expected 2529 (9 9 9)\n";
    assert!(text.contains(cells), "{}", text);
}

#[test]
fn an_emulator_that_draws_nothing_or_reads_wrong_words() {
    let report = Suite::new().run(nothing);
    assert!(!report.is_success());
    assert_eq!(report.count(Verdict::NotTaken), 15);
    assert!(report.in_part() > 100 && report.count(Verdict::Failed) > 300, "{}", report);
    let report = Suite::new().only(&["stores"]).run_each(|test, events| {
        let mut answer = machine(test, events, |word| word);
        answer.words.iter_mut().flatten().for_each(|word| *word ^= 1);
        answer
    });
    assert_eq!(report.count(Verdict::Passed), 0, "{}", report);
    assert!(report.to_string().contains("word 1 of "));
}

#[test]
fn another_size_another_picture_and_a_panic_are_failures() {
    let fills = Suite::new().only(&["fills/size-and-color"]);
    assert!(fills.run(|_| Vec::new()).to_string().contains("video memory has 0 cells, expected 524288"));
    let report = fills.run(|_| -> Vec<u16> { panic!("not yet") });
    assert!(report.to_string().contains("the emulator panicked"), "{}", report);
    let report = Suite::new().only(&["display"]).run_each(|test, events| {
        let mut answer = machine(test, events, |word| word);
        if let Shown::Picture(picture) = &mut answer.picture {
            picture.pixels.iter_mut().for_each(|byte| *byte ^= 8);
        }
        answer
    });
    assert!(report.to_string().contains("of the picture: yours "), "{}", report);
}

#[test]
#[should_panic(expected = "no chapter or test has this name")]
fn a_name_that_is_none() {
    Suite::new().without(&["fills/none"]);
}

#[test]
#[should_panic(expected = "fills/size-and-color")]
fn a_check_that_fails() {
    Suite::new().only(&["fills"]).check(nothing);
}

#[test]
#[should_panic(expected = "0 tests")]
fn a_check_of_no_test() {
    Suite::new().only(&["fills"]).without(&["fills"]).check(nothing);
}
