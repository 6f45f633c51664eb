//! Lifelike sheets: the lifts of a town in one quarter and the next.

use super::{lift, Place, NONE};
use crate::reference::SheetLift;
use crate::seeded::Seeded;

/// How large a lifelike sheet is.
#[derive(Clone, Copy)]
pub struct Town {
    /// How many lifts, more than two for each round.
    pub lifts: usize,
    pub rounds: usize,
    /// How many new rounds are redrawn from two old ones: an even number that divides twice the rounds.
    pub redrawn: usize,
}

/// The lifts of a town's sheet.
pub fn lifelike_lifts(seeded: &mut Seeded, town: Town) -> Vec<SheetLift> {
    let places = 0..town.lifts;
    let mut lifts: Vec<SheetLift> = places.map(|place| town.any_lift(seeded, place)).collect();
    let mut number = 1_000;
    for lift in &mut lifts {
        number += 1 + seeded.below(4) as u32;
        lift.number = number;
    }
    for round in 1..=town.rounds {
        hold_one(seeded, &mut lifts, round as u32);
    }
    lifts
}

impl Town {
    /// The lift at a place: each round's first two go on, the last places are newcomers'.
    fn any_lift(self, seeded: &mut Seeded, place: usize) -> SheetLift {
        let first = place < 2 * self.rounds;
        let newcomer = place + self.lifts / 60 >= self.lifts;
        let round = match first {
            true => place % self.rounds,
            false => seeded.index(self.rounds),
        };
        let moves = match place / self.rounds {
            0 => false,
            1 => true,
            _ => seeded.below(3) == 0,
        };
        let new_round = if moves { self.neighbour(round) } else { round };
        let count = door_count(seeded);
        let old: Place = (round as u32 + 1, count);
        let new: Place = (new_round as u32 + 1, next_count(seeded, count));
        match seeded.below(200) {
            _ if first => lift(old, new),
            _ if newcomer => lift(NONE, new),
            0..=2 => lift(old, NONE),
            3 => lift((old.0, 0), new),
            4 => lift(old, (new.0, 0)),
            _ => lift(old, new),
        }
    }

    /// The round that a round, counted from 0, exchanges lifts with; itself if it is not redrawn.
    fn neighbour(self, round: usize) -> usize {
        let distance = 2 * self.rounds / self.redrawn;
        match round % distance {
            0 => round + 1,
            1 => round - 1,
            _ => round,
        }
    }
}

/// A quarter's door count in hundreds: mostly from 200 to 6,000, rather low than high, at times far more.
fn door_count(seeded: &mut Seeded) -> u32 {
    let count = match seeded.below(60) {
        0 => 8_000 + seeded.below(52_000),
        _ => 200 + seeded.below(5_801).min(seeded.below(5_801)),
    };
    count as u32
}

/// The next quarter's door count: mostly a little more or less, at times far more or less.
pub(crate) fn next_count(seeded: &mut Seeded, count: u32) -> u32 {
    let percent = match seeded.below(20) {
        0 => 30 + seeded.below(221),
        _ => 80 + seeded.below(46),
    };
    count * percent as u32 / 100
}

/// Holds one of an old round's lifts, each with a chance by its old measure.
fn hold_one(seeded: &mut Seeded, lifts: &mut [SheetLift], round: u32) {
    let sent = lifts.iter().filter(|lift| lift.old_round == round);
    let sum: u32 = sent.map(|lift| lift.old_measure).sum();
    let value = seeded.below(sum.into()) as u32;
    let mut end = 0;
    let mut sent = lifts.iter_mut().filter(|lift| lift.old_round == round);
    let held = sent.find(|lift| {
        end += lift.old_measure;
        value < end
    });
    held.expect("the value is below the sum").held = true;
}
