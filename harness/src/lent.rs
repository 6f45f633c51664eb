//! What is lent for a choice: sheets with words that just suffice, lengths on either side of what is needed, and lists between marks; and
//! its reply.

use crate::reference::{read_sheet, write_sheet, Reply, SheetLift};
use crate::seeded::Seeded;
use crate::sheets::{add_sheet_words, longest};

/// How many words on either side of a list are not lent.
const MARGIN: usize = 4;

/// A sheet that fits, words that just suffice from the start on, and each word's new round.
pub struct Script {
    pub lifts: Vec<SheetLift>,
    pub sheet: Vec<u32>,
    pub rounds: usize,
    pub words: Vec<u64>,
    pub start: usize,
    pub round_of_word: Vec<u32>,
}

impl Script {
    /// For these lifts.
    pub fn new(seeded: &mut Seeded, lifts: Vec<SheetLift>) -> Script {
        let sheet = write_sheet(&lifts);
        let read = read_sheet(&sheet).expect("the sheet fits");
        let mut words: Vec<u64> = (0..seeded.index(3)).map(|_| seeded.word()).collect();
        let start = words.len();
        let round_of_word = add_sheet_words(seeded, &read, &mut words);
        Script {
            lifts,
            sheet,
            rounds: read.new_rounds.len(),
            words,
            start,
            round_of_word,
        }
    }

    /// For the longest sheet, whose held lifts shrink, so that each of its 100 rounds draws.
    pub fn longest(seeded: &mut Seeded) -> Script {
        let mut lifts = longest();
        let held = lifts.iter_mut().filter(|lift| lift.held);
        held.for_each(|lift| lift.new_measure = 1);
        Script::new(seeded, lifts)
    }
}

/// How many words are lent: mostly all, else fewer.
pub fn any_count(seeded: &mut Seeded, count: usize) -> usize {
    match seeded.below(4) {
        0 => seeded.index(count + 1),
        1 => count - count.min(1),
        _ => count,
    }
}

/// A start: mostly as it was, else in the list, at its end, behind it or far beyond.
pub fn any_start(seeded: &mut Seeded, start: usize, count: usize) -> usize {
    match seeded.below(16) {
        0 => seeded.index(count + 1),
        1 => count,
        2 => count + 1 + seeded.index(3),
        3 => usize::MAX - seeded.index(2),
        4 => (1 << (32 + seeded.index(32))) + seeded.index(count + 1),
        _ => start,
    }
}

/// The length of a list to be written: mostly as needed, else more, one less, none or any less.
pub fn any_len(seeded: &mut Seeded, needed: usize) -> usize {
    match seeded.below(16) {
        0..4 => needed + 1 + seeded.index(9),
        4 => needed - needed.min(1),
        5 => 0,
        6 => seeded.index(needed + 1),
        _ => needed,
    }
}

/// A list to be lent between words that are not; each of them is different before the call.
#[derive(Debug, PartialEq, Eq)]
pub struct Marked {
    words: Vec<u32>,
}

impl Marked {
    /// A list of so many words.
    pub fn new(len: usize) -> Marked {
        let marks = (0xA5A5_0000..).take(len + 2 * MARGIN);
        Marked {
            words: marks.collect(),
        }
    }

    /// The words that are lent.
    pub fn lent(&mut self) -> &mut [u32] {
        let end = self.words.len() - MARGIN;
        &mut self.words[MARGIN..end]
    }

    /// The first so many of the words lent; all other words are as they were before the call.
    pub fn written(&self, count: usize) -> Vec<u32> {
        let written = MARGIN..MARGIN + count;
        let mut expected = Marked::new(self.words.len() - 2 * MARGIN);
        expected.words[written.clone()].copy_from_slice(&self.words[written.clone()]);
        assert_eq!(*self, expected);
        self.words[written].to_vec()
    }
}

/// So many choices with so many words read.
pub fn chosen(choices: usize, words: usize) -> Reply {
    Reply::Chosen { choices, words }
}

/// Refused by this number at this place.
pub fn refused(number: u32, place: usize) -> Reply {
    Reply::Refused { number, place }
}

/// The document's number, 0 for choices.
pub fn number_of(reply: Reply) -> usize {
    match reply {
        Reply::Refused { number, .. } => number as usize,
        Reply::Chosen { .. } => 0,
    }
}
