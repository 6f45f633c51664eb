//! Ways through a round's draws, and what they weigh together.

use std::collections::BTreeMap;

/// A bound asked for and the value given.
pub type Drawn = (u128, u128);

/// Steps to the next values of the draws made; false when all have been through.
pub fn step(draws: &mut Vec<Drawn>) -> bool {
    while let Some((bound, value)) = draws.pop() {
        if value + 1 < bound {
            draws.push((bound, value + 1));
            return true;
        }
    }
    false
}

/// The weights of the ways to each lift, gathered by the product of the ways' bounds.
pub struct Weights {
    lifts: usize,
    by_bounds: BTreeMap<u128, Vec<u128>>,
}

impl Weights {
    /// No ways yet to so many lifts.
    pub fn new(lifts: usize) -> Self {
        Weights {
            lifts,
            by_bounds: BTreeMap::new(),
        }
    }

    /// Adds a way to the lift at this place: its weight is divided by the bound of each draw.
    pub fn add(&mut self, place: usize, weight: u128, draws: &[Drawn]) {
        let bounds = draws.iter().map(|(bound, _)| bound).product();
        let unweighed = || vec![0; self.lifts];
        self.by_bounds.entry(bounds).or_insert_with(unweighed)[place] += weight;
    }

    /// The weight of the ways to each lift over a common denominator, and the denominator.
    pub fn total(&self) -> (Vec<u128>, u128) {
        let common = self.by_bounds.keys().copied().fold(1, common_multiple);
        let mut total = vec![0; self.lifts];
        for (bounds, weights) in &self.by_bounds {
            for (sum, weight) in total.iter_mut().zip(weights) {
                *sum += weight * (common / bounds);
            }
        }
        (total, common)
    }
}

/// The least common multiple.
fn common_multiple(a: u128, b: u128) -> u128 {
    let (mut divisor, mut rest) = (a, b);
    while rest > 0 {
        (divisor, rest) = (rest, divisor % rest);
    }
    a / divisor * b
}
