//! One round: which lift is to carry the recorder.

use super::draw;

/// A lift of the round.
#[derive(Clone, Copy, Debug)]
pub struct Lift {
    /// 0 for donor 1, 1 for donor 2; None only if the old measure is 0.
    pub donor: Option<usize>,
    pub old_measure: u64,
    pub new_measure: u64,
}

/// A new round with no donor, donor 1 only, or donors 1 and 2.
#[derive(Clone, Debug)]
pub struct Round {
    /// The lifts in lift order.
    pub lifts: Vec<Lift>,
    /// T: each donor's whole old sum, lifts gone elsewhere included.
    pub old_sums: [u64; 2],
    /// The place of each donor's held lift, if it is here.
    pub held: [Option<usize>; 2],
}

/// How the choice came about; the numbers are the document's.
#[derive(Clone, Copy, Debug, PartialEq, Eq)]
pub enum Outcome {
    Held = 1,
    Replaced = 2,
    Fresh = 3,
}

/// The chosen lift's place, the outcome and the next position to read.
#[derive(Clone, Copy, Debug, PartialEq, Eq)]
pub struct Choice {
    pub place: usize,
    pub outcome: Outcome,
    pub next: usize,
}

/// Gives a value below the bound it is asked for, or None if there are no more.
type Below<'a> = &'a mut dyn FnMut(u128) -> Option<u128>;

/// Chooses with draws from the words, read from position `at` on; None if the words end.
pub fn choose(round: &Round, words: &[u64], at: usize) -> Option<Choice> {
    let mut next = at;
    let (place, outcome) = choose_by(round, &mut |bound| {
        let bound = u64::try_from(bound).expect("a round's bounds are at most 2^61");
        let (value, after) = draw(words, next, bound)?;
        next = after;
        Some(value.into())
    })?;
    Some(Choice {
        place,
        outcome,
        next,
    })
}

/// Chooses with draws from any source: the place and the outcome.
pub fn choose_by(round: &Round, below: Below) -> Option<(usize, Outcome)> {
    match round.held {
        [None, None] => fresh(round, below),
        [Some(place), None] | [None, Some(place)] => update(round, place, below),
        [Some(first), Some(second)] => {
            let value = below(round.scale())?;
            let first_odds = round.came_here(1) * u128::from(round.old_sums[0]);
            let preliminary = if value < first_odds { first } else { second };
            update(round, preliminary, below)
        }
    }
}

/// Draws among all lifts by new measure.
fn fresh(round: &Round, below: Below) -> Option<(usize, Outcome)> {
    let value = below(round.new_sum())?;
    let new_measures = round.lifts.iter().map(|lift| lift.new_measure.into());
    Some((stretch_of(value, new_measures), Outcome::Fresh))
}

/// Keeps the preliminary lift or replaces it by growth.
fn update(round: &Round, preliminary: usize, below: Below) -> Option<(usize, Outcome)> {
    let old_weights = round.old_weights();
    let new_weights = round.new_weights();
    if stays(old_weights[preliminary], new_weights[preliminary], below)? {
        return Some((preliminary, Outcome::Held));
    }
    let weights = new_weights.iter().zip(&old_weights);
    let growths = weights.map(|(new, old)| new.saturating_sub(*old));
    let value = below(growths.clone().sum())?;
    let place = stretch_of(value, growths);
    match round.held.contains(&Some(place)) {
        true => Some((place, Outcome::Held)),
        false => Some((place, Outcome::Replaced)),
    }
}

/// Whether the preliminary lift stays; only a shrinking one takes a draw.
fn stays(old_weight: u128, new_weight: u128, below: Below) -> Option<bool> {
    if new_weight >= old_weight {
        return Some(true);
    }
    Some(below(old_weight)? < new_weight)
}

/// The place of the stretch a value falls in, the lengths laid end to end.
fn stretch_of(value: u128, mut lengths: impl Iterator<Item = u128>) -> usize {
    let mut end = 0;
    let place = lengths.position(|length| {
        end += length;
        value < end
    });
    place.expect("the value is below the lengths' sum")
}

impl Round {
    /// S: the sum of the new measures.
    pub fn new_sum(&self) -> u128 {
        let measures = self.lifts.iter().map(|lift| u128::from(lift.new_measure));
        measures.sum()
    }

    /// U: the part of a donor's old sum that came here.
    pub fn came_here(&self, donor: usize) -> u128 {
        let sent = self.lifts.iter().filter(|lift| lift.donor == Some(donor));
        sent.map(|lift| u128::from(lift.old_measure)).sum()
    }

    /// What each donor's old measures are multiplied by: the other's T, or 1 with one donor.
    fn multipliers(&self) -> [u128; 2] {
        match self.came_here(1) {
            0 => [1, 0],
            _ => [self.old_sums[1].into(), self.old_sums[0].into()],
        }
    }

    /// D: what the new measures are multiplied by.
    fn scale(&self) -> u128 {
        let multipliers = self.multipliers();
        self.came_here(0) * multipliers[0] + self.came_here(1) * multipliers[1]
    }

    /// The old weight of each lift.
    fn old_weights(&self) -> Vec<u128> {
        let multipliers = self
            .multipliers()
            .map(|multiplier| multiplier * self.new_sum());
        let multiplier = |lift: &Lift| lift.donor.map_or(0, |donor| multipliers[donor]);
        let weight = |lift| multiplier(lift) * u128::from(lift.old_measure);
        self.lifts.iter().map(weight).collect()
    }

    /// The new weight of each lift.
    fn new_weights(&self) -> Vec<u128> {
        let scale = self.scale();
        let weight = |lift: &Lift| scale * u128::from(lift.new_measure);
        self.lifts.iter().map(weight).collect()
    }
}
