//! The examples: folders with the program's two files, one of them also with counts.

use crate::reference::{write_sheet, NOT_COUNTED};
use crate::seeded::Seeded;
use crate::sheets::{lifelike_lifts, Town, EXAMPLE};
use crate::texts::lifelike_text;

/// The name of the sheet's file.
pub const SHEET_FILE: &str = "sheet.bin";

/// The name of the file of random words.
pub const WORDS_FILE: &str = "words.bin";

/// The name of the file of counts.
pub const COUNTS_FILE: &str = "counts.csv";

/// The seed of the quarter, and of its counts.
const SEED: u64 = 2031;
const COUNTS_SEED: u64 = 2032;

/// The numbers of the quarter's lifts whose modems were dead: they have no line in the counts.
const SILENT: [u32; 3] = [2_396, 2_923, 10_452];

/// How many random words the quarter has.
const WORDS: usize = 4_096;

/// The town of the quarter.
pub const TOWN: Town = Town {
    lifts: 3_870,
    rounds: 84,
    redrawn: 12,
};

/// A folder, named from the repository's top, and the bytes of its files.
pub struct Example {
    pub folder: &'static str,
    pub sheet: Vec<u8>,
    pub words: Vec<u8>,
    pub counts: Option<Vec<u8>>,
}

/// All examples; the check of the program runs it on the small one's copy.
pub fn examples() -> [Example; 3] {
    [
        small("example/small"),
        small("crates/choose/data"),
        quarter("example/quarter"),
    ]
}

/// The document's sheet and chance words.
fn small(folder: &'static str) -> Example {
    Example {
        folder,
        sheet: sheet_bytes(&EXAMPLE),
        words: words_bytes(&[10, 0]),
        counts: None,
    }
}

/// A quarter of a whole town; three of its lifts were not counted.
fn quarter(folder: &'static str) -> Example {
    let mut seeded = Seeded::new(SEED);
    let mut lifts = lifelike_lifts(&mut seeded, TOWN);
    let words: Vec<u64> = (0..WORDS).map(|_| seeded.word()).collect();
    let counts = lifelike_text(&mut Seeded::new(COUNTS_SEED), &lifts);
    let silent = lifts
        .iter_mut()
        .filter(|lift| SILENT.contains(&lift.number));
    silent.for_each(|lift| lift.new_measure = NOT_COUNTED);
    Example {
        folder,
        sheet: sheet_bytes(&write_sheet(&lifts)),
        words: words_bytes(&words),
        counts: Some(counts),
    }
}

/// The file of a sheet.
pub fn sheet_bytes(sheet: &[u32]) -> Vec<u8> {
    sheet.iter().flat_map(|word| word.to_le_bytes()).collect()
}

/// The file of random words.
pub fn words_bytes(words: &[u64]) -> Vec<u8> {
    words.iter().flat_map(|word| word.to_le_bytes()).collect()
}
