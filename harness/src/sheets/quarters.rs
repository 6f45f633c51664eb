//! From one quarter to the next: what the office changes in the sheet that was written.

use super::{any, any_round, lift, measure_new_round, HIGHEST_NUMBER, NONE};
use crate::reference::{SheetLift, MOST_LIFTS};
use crate::seeded::Seeded;
use std::collections::BTreeSet;

/// Two rounds exchange lifts, some lifts are withdrawn and up to two newcomers are added, which have measure 0 until they are counted.
/// Each lift was in the same round before.
pub fn rearrange(seeded: &mut Seeded, lifts: &mut Vec<SheetLift>) {
    let mut rounds: Vec<u32> = rounds_in_use(lifts).into_iter().collect();
    rounds.push(any_round(seeded));
    let exchanging = [any(seeded, &rounds), any(seeded, &rounds)];
    let withdrawn_of = any(seeded, &[4, 40]);
    for lift in lifts.iter_mut().filter(|lift| lift.new_round > 0) {
        if seeded.below(withdrawn_of) == 0 {
            (lift.new_round, lift.new_measure) = NONE;
        } else if exchanging.contains(&lift.new_round) {
            lift.new_round = any(seeded, &exchanging);
        }
    }
    for _ in 0..seeded.index(3) {
        let round = any(seeded, &rounds);
        add_newcomer(seeded, lifts, round);
    }
}

/// Measures all new rounds; some lifts that are no newcomers are not counted, at times all lifts of a round.
pub fn measure_rounds(seeded: &mut Seeded, lifts: &mut [SheetLift]) {
    for lift in lifts.iter_mut() {
        lift.new_measure = 0;
    }
    for round in rounds_in_use(lifts) {
        measure_new_round(seeded, lifts, round);
    }
}

/// The new rounds that lifts name.
fn rounds_in_use(lifts: &[SheetLift]) -> BTreeSet<u32> {
    let rounds = lifts.iter().map(|lift| lift.new_round);
    rounds.filter(|&round| round > 0).collect()
}

/// Adds a newcomer to a new round, if there is room and its number, any or the one behind another lift's, is free.
fn add_newcomer(seeded: &mut Seeded, lifts: &mut Vec<SheetLift>, round: u32) {
    let number = match seeded.below(2) {
        0 if !lifts.is_empty() => any(seeded, lifts).number + 1,
        _ => 1 + seeded.below(HIGHEST_NUMBER.into()) as u32,
    };
    let number = number.min(HIGHEST_NUMBER);
    let place = lifts.binary_search_by_key(&number, |lift| lift.number);
    if let (Err(place), true) = (place, lifts.len() < MOST_LIFTS) {
        let newcomer = lift(NONE, (round, 0));
        lifts.insert(place, SheetLift { number, ..newcomer });
    }
}
