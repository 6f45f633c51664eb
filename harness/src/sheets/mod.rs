//! Seeded sheets.

mod by_hand;
mod damage;
mod lifelike;
mod quarters;
mod sorts;
mod words;

pub use by_hand::{held, lift, longest, numbered, Place, EXAMPLE, NONE};
pub use damage::{damaged_sheet, LIFT_DAMAGES, WORD_DAMAGES};
pub use lifelike::{lifelike_lifts, Town};
pub use quarters::{measure_rounds, rearrange};
pub use sorts::{names_of_sheet_sorts, Checked};
pub use words::{add_round_words, add_sheet_words};

pub(crate) use damage::{any_such, empty_new_round, fill_new_round, one_of};
pub(crate) use damage::{silence_round, silence_without_measure};
pub(crate) use lifelike::next_count;
pub(crate) use sorts::number_of;

use crate::reference::{SheetLift, LARGEST_SUM, MOST_ROUNDS, NOT_COUNTED};
use crate::seeded::Seeded;
use std::collections::BTreeSet;

/// The highest lift number.
const HIGHEST_NUMBER: u32 = (1 << 28) - 1;

/// A new round and the two old rounds, or one, that may send it measure.
type Flow = (u32, [u32; 2]);

/// Lifts of a sheet that fits, some of them not counted: mostly few, at times hundreds, seldom up to the most.
pub fn any_lifts(seeded: &mut Seeded) -> Vec<SheetLift> {
    let (most_lifts, most_rounds) = match seeded.below(1_000) {
        0..3 => (4_096, 1_500),
        3..40 => (300, 100),
        _ => (12, 6),
    };
    let count = seeded.index(most_lifts + 1);
    fitting_lifts(seeded, count, most_rounds)
}

/// Lifts of a sheet that fits, some of them not counted, in up to so many old rounds and as many new ones.
pub fn fitting_lifts(seeded: &mut Seeded, count: usize, most_rounds: usize) -> Vec<SheetLift> {
    let old_rounds = some_rounds(seeded, most_rounds);
    let new_rounds = some_rounds(seeded, most_rounds);
    let mut donors = || [any(seeded, &old_rounds), any(seeded, &old_rounds)];
    let flows: Vec<Flow> = new_rounds.iter().map(|&round| (round, donors())).collect();
    let mut lifts: Vec<SheetLift> = (0..count)
        .map(|_| unmeasured_lift(seeded, &flows, &old_rounds))
        .collect();
    for round in old_rounds {
        measure_old_round(seeded, &mut lifts, round);
    }
    for round in new_rounds {
        measure_new_round(seeded, &mut lifts, round);
    }
    number_lifts(seeded, &mut lifts);
    lifts
}

/// The words of a sheet without a faulty word, with the old measure in each new place that was not counted.
pub fn filled_in(sheet: &[u32]) -> Vec<u32> {
    let mut words = sheet.to_vec();
    for position in 1..words.len() {
        let word = words[position];
        if word >> 28 == 3 && word & NOT_COUNTED == NOT_COUNTED {
            let old_measure = words[position - 1] & NOT_COUNTED;
            words[position] = word - NOT_COUNTED + old_measure;
        }
    }
    words
}

/// One of the items, of which there is at least one.
pub(crate) fn any<T: Copy>(seeded: &mut Seeded, items: &[T]) -> T {
    items[seeded.index(items.len())]
}

/// A round: low, about 64, high or any.
fn any_round(seeded: &mut Seeded) -> u32 {
    let highest = u64::from(MOST_ROUNDS);
    let round = match seeded.below(4) {
        0 => 1 + seeded.below(4),
        1 => 62 + seeded.below(5),
        2 => highest - seeded.below(4),
        _ => 1 + seeded.below(highest),
    };
    round as u32
}

/// At least one and up to so many different rounds.
fn some_rounds(seeded: &mut Seeded, most: usize) -> Vec<u32> {
    let count = 1 + seeded.index(most);
    let rounds: BTreeSet<u32> = (0..count).map(|_| any_round(seeded)).collect();
    rounds.into_iter().collect()
}

/// A lift with its rounds, and with old measure 1 if it may get an old measure.
fn unmeasured_lift(seeded: &mut Seeded, flows: &[Flow], old_rounds: &[u32]) -> SheetLift {
    let (round, donors) = any(seeded, flows);
    let (old_round, old_measure, new_round) = match seeded.below(16) {
        0 => (0, 0, 0),
        1 | 2 => (any(seeded, old_rounds), 1, 0),
        3 | 4 => (0, 0, round),
        5 => (any(seeded, old_rounds), 0, round),
        _ => (any(seeded, &donors), 1, round),
    };
    SheetLift {
        number: 0,
        old_round,
        old_measure,
        new_round,
        new_measure: 0,
        held: false,
    }
}

/// Measures an old round and holds one of its lifts; if none may get a measure, they become newcomers.
fn measure_old_round(seeded: &mut Seeded, lifts: &mut [SheetLift], round: u32) {
    let lifts = lifts.iter_mut().filter(|lift| lift.old_round == round);
    let (mut sending, others): (Vec<_>, Vec<_>) = lifts.partition(|lift| lift.old_measure > 0);
    if sending.is_empty() {
        others.into_iter().for_each(|lift| lift.old_round = 0);
        return;
    }
    let measures = sending.iter_mut().map(|lift| &mut lift.old_measure);
    measure(seeded, measures.collect());
    sending.retain(|lift| lift.old_measure > 0);
    let held = seeded.index(sending.len());
    sending[held].held = true;
}

/// Measures a new round, of which at times some lifts or all are not counted.
fn measure_new_round(seeded: &mut Seeded, lifts: &mut [SheetLift], round: u32) {
    let lifts = lifts.iter_mut().filter(|lift| lift.new_round == round);
    let mut lifts: Vec<_> = lifts.collect();
    let filled_in = silence_some(seeded, &mut lifts);
    if filled_in == 0 && lifts.iter().all(|lift| lift.is_silent()) {
        lifts.iter_mut().for_each(|lift| lift.new_measure = 0);
    }
    lifts.retain(|lift| !lift.is_silent());
    let measures = lifts.into_iter().map(|lift| &mut lift.new_measure);
    measure_up_to(seeded, measures.collect(), LARGEST_SUM - filled_in);
}

/// Some lifts of a new round that are no newcomers are not counted, as long as their old measures have room; gives the sum of these.
fn silence_some(seeded: &mut Seeded, lifts: &mut [&mut SheetLift]) -> u32 {
    let (chances, of) = any(seeded, &[(0, 1), (0, 1), (1, 4), (1, 2), (1, 1)]);
    let mut filled_in = 0;
    for lift in lifts.iter_mut().filter(|lift| lift.old_round > 0) {
        let room = LARGEST_SUM - filled_in;
        if seeded.below(of) < chances && lift.old_measure <= room {
            lift.new_measure = NOT_COUNTED;
            filled_in += lift.old_measure;
        }
    }
    filled_in
}

/// The measures of a new round, as written.
pub(crate) fn new_measures(lifts: &mut [SheetLift], round: u32) -> Vec<&mut u32> {
    let lifts = lifts.iter_mut().filter(|lift| lift.new_round == round);
    lifts.map(|lift| &mut lift.new_measure).collect()
}

/// Splits a round's sum into its measures.
pub(crate) fn measure(seeded: &mut Seeded, measures: Vec<&mut u32>) {
    measure_up_to(seeded, measures, LARGEST_SUM);
}

/// Splits a round's sum, or as much of it as there is room for, into these measures.
fn measure_up_to(seeded: &mut Seeded, measures: Vec<&mut u32>, room: u32) {
    let sum = seeded.round_sum().min(room.into());
    let parts = seeded.split(sum, measures.len().max(1));
    for (measure, part) in measures.into_iter().zip(parts) {
        *measure = part as u32;
    }
}

/// Numbers the lifts by small or large steps, at times up to the highest number.
fn number_lifts(seeded: &mut Seeded, lifts: &mut [SheetLift]) {
    let longest_step = any(seeded, &[1, 3, 60_000]);
    let mut number = 0;
    for lift in lifts.iter_mut() {
        number += 1 + seeded.below(longest_step) as u32;
        lift.number = number;
    }
    if seeded.below(4) == 0 {
        let more = HIGHEST_NUMBER - number;
        lifts.iter_mut().for_each(|lift| lift.number += more);
    }
}
