//! Prints what the tests of the suite have, for tests/rust/test_suite.py: sums of cells and pixels, each times its place.
use std::io::Write;

use psxgpu::conformance::{tests, version, Decides, Shown, Test};

use crate::Result;

pub fn print(out: &mut impl Write) -> Result<()> {
    writeln!(out, "{}", version())?;
    for test in tests() {
        let decides = if test.decides() == Decides::PsxSpx { "psx-spx" } else { "own rule" };
        write!(out, "{}\t{}\t{}\t{}\t{}", test.name(), test.rule(), test.section(), decides, test.rows())?;
        write!(out, "\t{}\t{}", sum(test.capture()), sum(&test.cells()))?;
        write!(out, "\t{}", sum(&ignored(&test)))?;
        let words = test.words().iter().map(|one| format!("{:08x}/{:08x}", one.word, one.mask)).collect::<Vec<_>>();
        writeln!(out, "\t{}\t{}", words.join(" "), shown(test.picture()))?;
    }
    Ok(())
}

/// Returns for each cell 1 if its value does not matter, else 0.
fn ignored(test: &Test) -> Vec<u8> {
    let places = (0..test.rows()).flat_map(|y| (0..1024).map(move |x| (x, y)));
    places.map(|(x, y)| u8::from(test.is_ignored(x, y))).collect()
}

fn shown(picture: &Shown) -> String {
    match picture {
        Shown::NotAsked => "-".to_owned(),
        Shown::Nothing => "none".to_owned(),
        Shown::Picture(picture) => format!("{}x{}:{}", picture.width, picture.height, sum(&picture.pixels)),
    }
}

fn sum<T: Copy + Into<u64>>(values: &[T]) -> u64 {
    (1..).zip(values).map(|(place, &value)| place * value.into()).sum()
}
