//! Compares what an emulator has done with what a test expects.
use super::suite::{Decides, Shown, Test, COLUMNS};

/// What an emulator has done with the events of a test. A `Vec<u16>` is an answer of cells alone.
///
/// ```
/// use psxgpu::conformance::Answer;
///
/// let answer = Answer::from(vec![0; 1024 * 512]);
/// assert!(answer.words.is_none());
/// ```
#[derive(Clone, Debug)]
pub struct Answer {
    /// Video memory, row by row of 1024 cells.
    pub cells: Vec<u16>,
    /// The words that each Read and each Stat has read, in order; `None`: they are not compared.
    pub words: Option<Vec<u32>>,
    /// What is shown; [`Shown::NotAsked`]: it is not compared.
    pub picture: Shown,
}

impl From<Vec<u16>> for Answer {
    fn from(cells: Vec<u16>) -> Self {
        Answer { cells, words: None, picture: Shown::NotAsked }
    }
}

/// How a test ended.
#[derive(Clone, Copy, Debug, PartialEq, Eq, Hash)]
pub enum Verdict {
    /// All that was compared is as expected.
    Passed,
    /// Something is not, and psx-spx decides.
    Failed,
    /// Something is not, and a rule of this project decides: the emulator may be right.
    Differs,
    /// The emulator has 512 rows of video memory, and the test needs 1024.
    NotTaken,
}

/// Returns the verdict of an answer, and how it differs.
pub(super) fn judge(test: &Test, answer: &Answer) -> (Verdict, String) {
    if test.rows() == 1024 && answer.cells.len() == COLUMNS * 512 {
        return (Verdict::NotTaken, String::new());
    }
    let reasons = [of_cells(test, &answer.cells), of_words(test, answer), of_picture(test, &answer.picture)];
    let text = reasons.iter().flatten().map(String::as_str).collect::<Vec<_>>().join("; ");
    if text.is_empty() {
        (Verdict::Passed, text)
    } else {
        (failure(test), text)
    }
}

/// Returns the verdict of a test that did not pass.
pub(super) fn failure(test: &Test) -> Verdict {
    match test.decides() {
        Decides::PsxSpx => Verdict::Failed,
        Decides::OwnRule => Verdict::Differs,
    }
}

fn of_cells(test: &Test, cells: &[u16]) -> Option<String> {
    let expected = test.cells();
    if cells.len() != expected.len() {
        return Some(format!("video memory has {} cells, expected {}", cells.len(), expected.len()));
    }
    if cells == expected {
        return None;
    }
    let differ = (0..cells.len()).filter(|&at| cells[at] != expected[at]);
    let places: Vec<_> = differ.filter(|&at| !test.is_ignored(at % COLUMNS, at / COLUMNS)).collect();
    let &at = places.first()?;
    let (yours, ours) = (cell_text(cells[at]), cell_text(expected[at]));
    let cells = if places.len() == 1 { "1 cell".to_owned() } else { format!("{} cells", places.len()) };
    let (x, y) = (at % COLUMNS, at / COLUMNS);
    Some(format!("{}, the first at ({}, {}): yours {}, expected {}", cells, x, y, yours, ours))
}

/// Returns a cell with its channels red, green, blue, and bit 15 if it is 1.
fn cell_text(cell: u16) -> String {
    let bit = if cell >> 15 == 1 { ", bit 15" } else { "" };
    format!("{:04x} ({} {} {}{})", cell, cell & 31, cell >> 5 & 31, cell >> 10 & 31, bit)
}

fn of_words(test: &Test, answer: &Answer) -> Option<String> {
    let words = answer.words.as_ref()?;
    let expected = test.words();
    if words.len() != expected.len() {
        return Some(format!("{} words were read, expected {}", words.len(), expected.len()));
    }
    let pairs = words.iter().zip(expected);
    let (at, (word, one)) = pairs.enumerate().find(|(_, (word, one))| (*word ^ one.word) & one.mask != 0)?;
    let bits = if one.mask == u32::MAX { String::new() } else { format!(" in the bits {:08x}", one.mask) };
    Some(format!("word {} of {}: yours {:08x}, expected {:08x}{}", at + 1, words.len(), word, one.word, bits))
}

fn of_picture(test: &Test, shown: &Shown) -> Option<String> {
    let (yours, expected) = match (shown, test.picture()) {
        (Shown::NotAsked, _) | (_, Shown::NotAsked) | (Shown::Nothing, Shown::Nothing) => return None,
        (Shown::Picture(_), Shown::Nothing) => return Some("a picture, and none is expected".to_owned()),
        (Shown::Nothing, Shown::Picture(_)) => return Some("no picture, and one is expected".to_owned()),
        (Shown::Picture(yours), Shown::Picture(expected)) => (yours, expected),
    };
    if (yours.width, yours.height) != (expected.width, expected.height) {
        let sizes = (yours.width, yours.height, expected.width, expected.height);
        return Some(format!("the picture: yours {} by {}, expected {} by {}", sizes.0, sizes.1, sizes.2, sizes.3));
    }
    if yours.pixels.len() != expected.pixels.len() {
        return Some(format!("the picture has {} bytes, expected {}", yours.pixels.len(), expected.pixels.len()));
    }
    let pixels = yours.pixels.chunks_exact(3).zip(expected.pixels.chunks_exact(3));
    let (at, (mine, theirs)) = pixels.enumerate().find(|(_, (mine, theirs))| mine != theirs)?;
    let (x, y) = (at % usize::from(yours.width), at / usize::from(yours.width));
    Some(format!("pixel ({}, {}) of the picture: yours {:?}, expected {:?}", x, y, mine, theirs))
}
