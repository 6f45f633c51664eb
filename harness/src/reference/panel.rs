//! The whole choice for a sheet, and the program's text.

use super::sheet::{payload_of, place_of, place_word, word, Refusal};
use super::MOST_ROUNDS;
use super::{choose, donors, old_sum, read_sheet, Choice, Lift, Round, Sheet, SheetLift};
use std::collections::{BTreeMap, BTreeSet};

/// The most random words the program reads.
const MOST_WORDS: usize = 4_096;

// The kinds of output words.
const OUTCOME: u32 = 5;
const CHOSEN: u32 = 6;

/// The reply to a call that chooses; the numbers are the document's.
#[derive(Clone, Copy, Debug, PartialEq, Eq)]
pub enum Reply {
    /// Refused by this number at this place.
    Refused { number: u32, place: usize },
    /// How many choices were made and how many words were read.
    Chosen { choices: usize, words: usize },
}

/// A new round, its number and the numbers of its lifts.
pub struct NewRound {
    pub number: u32,
    pub lift_numbers: Vec<u32>,
    pub round: Round,
}

/// Chooses for all new rounds with words read from `start` on, and writes a pair for each.
pub fn choose_panel(sheet: &[u32], words: &[u64], start: usize, out: &mut [u32]) -> Reply {
    match choose_pairs(sheet, words, start, out.len()) {
        Ok(pairs) => pairs.write(out),
        Err((number, place)) => Reply::Refused { number, place },
    }
}

/// The pairs of a sheet's new rounds; refusals 1 to 13, and 16.
fn choose_pairs(
    sheet: &[u32],
    words: &[u64],
    start: usize,
    out_len: usize,
) -> Result<Pairs, Refusal> {
    let rounds = new_rounds(&read_sheet(sheet)?);
    check_lent(&rounds, words, start, out_len)?;
    Pairs::choose(&rounds, words, start)
}

/// Checks that the start is in the words or at their end and that the output has room for the pairs; refusals 11 and 12.
pub(super) fn check_lent(
    rounds: &[NewRound],
    words: &[u64],
    start: usize,
    out_len: usize,
) -> Result<(), Refusal> {
    let needed = 2 * rounds.len();
    if start > words.len() {
        return Err((11, start));
    }
    if out_len < needed {
        return Err((12, needed));
    }
    Ok(())
}

/// The output's pairs, and how many words were read for them.
pub(super) struct Pairs {
    pairs: Vec<[u32; 2]>,
    words: usize,
}

impl Pairs {
    /// Chooses for these rounds; refusal 13.
    pub(super) fn choose(
        rounds: &[NewRound],
        words: &[u64],
        start: usize,
    ) -> Result<Pairs, Refusal> {
        let mut next = start;
        let mut pairs = Vec::new();
        for round in rounds {
            let choice = choose(&round.round, words, next);
            let choice = choice.ok_or((13, round.number as usize))?;
            next = choice.next;
            pairs.push(round.pair(choice));
        }
        let words = next - start;
        Ok(Pairs { pairs, words })
    }

    /// The numbers of the lifts chosen.
    pub(super) fn lift_numbers(&self) -> BTreeSet<u32> {
        let pairs = self.pairs.iter();
        pairs.map(|&[_, lift]| payload_of(lift)).collect()
    }

    /// Writes the pairs to an output that has room for them, and gives the reply.
    pub(super) fn write(&self, out: &mut [u32]) -> Reply {
        let written = self.pairs.as_flattened();
        out[..written.len()].copy_from_slice(written);
        Reply::Chosen {
            choices: self.pairs.len(),
            words: self.words,
        }
    }
}

/// The new rounds of a sheet that fits, rising.
pub fn new_rounds(sheet: &Sheet) -> Vec<NewRound> {
    let old_rounds = sheet.old_rounds.iter();
    let old_sums: BTreeMap<u32, u64> = old_rounds
        .map(|(&round, lifts)| (round, old_sum(lifts)))
        .collect();
    let new_rounds = sheet.new_rounds.iter();
    new_rounds
        .map(|(&number, lifts)| NewRound {
            number,
            lift_numbers: lifts.iter().map(|lift| lift.number).collect(),
            round: round_of(lifts, &old_sums),
        })
        .collect()
}

/// The round of these lifts with the new measures that count, given the sum of each old round.
fn round_of(lifts: &[SheetLift], old_sums: &BTreeMap<u32, u64>) -> Round {
    let donors: Vec<u32> = donors(lifts).into_iter().collect();
    let donor_of = |lift: &SheetLift| match lift.old_measure {
        0 => None,
        _ => donors.iter().position(|&donor| donor == lift.old_round),
    };
    let whole = |donor: usize| donors.get(donor).map_or(0, |round| old_sums[round]);
    let held = |donor: usize| {
        let mut lifts = lifts.iter();
        lifts.position(|lift| lift.held && donor_of(lift) == Some(donor))
    };
    let measured = |lift: &SheetLift| Lift {
        donor: donor_of(lift),
        old_measure: lift.old_measure.into(),
        new_measure: lift.filled_measure().into(),
    };
    Round {
        lifts: lifts.iter().map(measured).collect(),
        old_sums: [0, 1].map(whole),
        held: [0, 1].map(held),
    }
}

impl NewRound {
    /// The output's two words for a choice.
    fn pair(&self, choice: Choice) -> [u32; 2] {
        [
            place_word(OUTCOME, self.number, choice.outcome as u32),
            word(CHOSEN, self.lift_numbers[choice.place]),
        ]
    }
}

/// What the program prints, given the whole content of its two files.
pub fn report(sheet_bytes: &[u8], words_bytes: &[u8]) -> String {
    let (sheet, unfinished) = sheet_bytes.as_chunks();
    if !unfinished.is_empty() {
        return format!("refused 1 {}\n", sheet_bytes.len());
    }
    let sheet: Vec<u32> = sheet.iter().map(|word| u32::from_le_bytes(*word)).collect();
    let (words, _unfinished) = words_bytes.as_chunks();
    let words = words.iter().take(MOST_WORDS);
    let words: Vec<u64> = words.map(|word| u64::from_le_bytes(*word)).collect();
    let mut out = [0; 2 * MOST_ROUNDS as usize];
    match choose_panel(&sheet, &words, 0, &mut out) {
        Reply::Refused { number, place } => format!("refused {number} {place}\n"),
        Reply::Chosen { choices, words } => {
            let pairs = out.as_chunks().0[..choices].iter();
            let lines: String = pairs.map(line_of).collect();
            format!("{lines}words {words}\n")
        }
    }
}

/// The program's line for a pair.
fn line_of(pair: &[u32; 2]) -> String {
    let [place, lift] = pair.map(payload_of);
    let (round, outcome) = place_of(place);
    format!("{round} {lift} {outcome}\n")
}
