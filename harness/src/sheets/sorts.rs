//! The sorts of sheets that damages are to yield, each with a lift that was not counted or a place that can't be so.

use crate::reference::{check, new_sum, write_sheet, SheetLift, Verdict};

/// Lifts, the words of their sheet, and what that is found to be.
pub struct Checked {
    lifts: Vec<SheetLift>,
    words: Vec<u32>,
    verdict: Verdict,
}

/// A sort's name, and whether a sheet is of it.
type Sort = (&'static str, fn(&Checked) -> bool);

/// All sorts.
const SORTS: [Sort; 17] = [
    ("fits: held", |sheet| sheet.fits_with(|lift| lift.held)),
    ("fits: old measure 0", |sheet| {
        sheet.fits_with(|lift| lift.old_measure == 0)
    }),
    ("fits: another old round", |sheet| {
        sheet.fits_with(|lift| lift.old_round != lift.new_round)
    }),
    ("fits: sum 1,048,576", |sheet| {
        sheet.is(0) && (1..=100).any(|round| sheet.filled_sum(round) == Some(1_048_576))
    }),
    ("8: sum 1,048,577", |sheet| {
        sheet.is(8) && sheet.refused_sum() == Some(1_048_577)
    }),
    ("9: sum 0", |sheet| {
        sheet.is(9) && sheet.refused_sum() == Some(0)
    }),
    ("10: any sum", |sheet| {
        sheet.is(10) && sheet.refused_sum().is_some()
    }),
    ("4: all ones in an old place", |sheet| {
        matches!(sheet.refused_place(), Some((2, _, 2_097_151)))
    }),
    ("4: 2,097,150 in a new place", |sheet| {
        matches!(sheet.refused_place(), Some((3, 1..=100, 2_097_150)))
    }),
    ("4: all ones in round 0", |sheet| {
        sheet.refused_place() == Some((3, 0, 2_097_151))
    }),
    ("4: all ones in round 101", |sheet| {
        sheet.refused_place() == Some((3, 101, 2_097_151))
    }),
    ("4: newcomer, all ones in round 0", |sheet| {
        sheet.refused_place() == Some((3, 0, 2_097_151)) && sheet.is_newcomer()
    }),
    ("4: newcomer, all ones in round 101", |sheet| {
        sheet.refused_place() == Some((3, 101, 2_097_151)) && sheet.is_newcomer()
    }),
    ("4 before 16", |sheet| sheet.is(4) && sheet.then() == 16),
    ("16 before 4", |sheet| sheet.is(16) && sheet.then() == 4),
    ("16 before 16", |sheet| sheet.is(16) && sheet.then() == 16),
    ("16 alone", |sheet| sheet.is(16) && sheet.then() == 0),
];

/// The names of all sorts.
pub fn names_of_sheet_sorts() -> Vec<&'static str> {
    SORTS.iter().map(|(name, _)| *name).collect()
}

impl Checked {
    /// The sheet of these lifts, which is found to be this.
    pub fn new(lifts: Vec<SheetLift>, verdict: Verdict) -> Checked {
        let words = write_sheet(&lifts);
        Checked {
            lifts,
            words,
            verdict,
        }
    }

    /// The names of the sorts that it is of.
    pub fn sorts(&self) -> Vec<&'static str> {
        let sorts = SORTS.iter().filter(|(_, has)| has(self));
        sorts.map(|(name, _)| *name).collect()
    }

    /// Whether it is refused by this number, or fits if that is 0.
    fn is(&self, number: u32) -> bool {
        number_of(self.verdict) == number
    }

    /// The place of its refusal, 0 if it fits.
    fn place(&self) -> usize {
        match self.verdict {
            Verdict::Refused { place, .. } => place,
            Verdict::Fits { .. } => 0,
        }
    }

    /// Whether it fits and has such a lift that was not counted.
    fn fits_with(&self, such: fn(&SheetLift) -> bool) -> bool {
        let mut lifts = self.lifts.iter();
        self.is(0) && lifts.any(|lift| lift.is_silent() && such(lift))
    }

    /// The sum of a new round some lift of which was not counted.
    fn filled_sum(&self, round: u32) -> Option<u64> {
        let lifts = self.lifts.iter().filter(|lift| lift.new_round == round);
        let lifts: Vec<SheetLift> = lifts.copied().collect();
        let silent = lifts.iter().any(SheetLift::is_silent);
        silent.then(|| new_sum(&lifts))
    }

    /// The sum of the new round that is refused, some lift of which was not counted.
    fn refused_sum(&self) -> Option<u64> {
        self.filled_sum(self.place() as u32)
    }

    /// The kind, round and measure of a word refused by 4.
    fn refused_place(&self) -> Option<(u32, u32, u32)> {
        self.is(4).then(|| {
            let word = self.words[self.place()];
            (word >> 28, word << 4 >> 25, word & 0x1F_FFFF)
        })
    }

    /// Whether the word before the refused one is a newcomer's old place.
    fn is_newcomer(&self) -> bool {
        self.words[self.place() - 1] == 0x2000_0000
    }

    /// The number that refuses it once the place refused is one of no fault, 0 if it then fits.
    fn then(&self) -> u32 {
        let mut words = self.words.clone();
        let word = &mut words[self.place()];
        *word = match *word >> 28 {
            2 => 0x2020_0001,
            _ => 0x3000_0000,
        };
        number_of(check(&words))
    }
}

/// The document's number, 0 for a sheet that fits.
pub(crate) fn number_of(verdict: Verdict) -> u32 {
    match verdict {
        Verdict::Refused { number, .. } => number,
        Verdict::Fits { .. } => 0,
    }
}
