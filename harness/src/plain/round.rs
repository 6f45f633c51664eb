//! The choice for one new round.

use super::sheet::{place_of, Rounds};
use super::{Refusal, MEASURE, PAYLOAD};
use crate::reference::{Outcome, NOT_COUNTED};

/// Random words, and how far they have been read.
pub(super) struct Reader<'a> {
    pub words: &'a [u64],
    pub next: usize,
}

/// A new round of a sheet that fits.
pub(super) struct NewRound<'a> {
    sheet: &'a [u32],
    /// The positions of its lifts' new places, in lift order.
    positions: &'a [u16],
    /// S: the sum of the new measures.
    new_sum: u64,
    /// The old measure that came here.
    came_here: u64,
    /// Donors 1 and 2; round 0 stands for none.
    donors: [Donor; 2],
}

/// An old round, its whole old sum, and the position of its held lift's new place if that is here.
#[derive(Clone, Copy, Default)]
struct Donor {
    round: usize,
    old_sum: u64,
    held: Option<usize>,
}

/// What measures are multiplied by to make weights of them.
struct Factors {
    /// For old measures from donor 1 and from donor 2.
    old: [u64; 2],
    /// D, for new measures.
    new: u64,
    /// How many of the values below D are for donor 1.
    first_odds: u64,
}

/// The position of the chosen lift's new place, and the outcome.
type Choice = (usize, Outcome);

impl Reader<'_> {
    /// Checks that the start is in the words or at their end; refusal 11.
    pub(super) fn check_start(&self) -> Result<(), Refusal> {
        match self.next <= self.words.len() {
            true => Ok(()),
            false => Err((11, self.next)),
        }
    }

    /// Draws below a bound; none if the words end.
    fn below(&mut self, bound: u64) -> Option<u64> {
        let limit = u64::MAX / bound * bound;
        let unread = &self.words[self.next..];
        let passed_over = unread.iter().position(|&word| word < limit)?;
        self.next += passed_over + 1;
        Some(unread[passed_over] % bound)
    }
}

impl<'a> NewRound<'a> {
    /// The new round of this number, whose lifts' new places are at these positions.
    pub(super) fn new(
        sheet: &'a [u32],
        rounds: &Rounds,
        number: usize,
        positions: &'a [u16],
    ) -> NewRound<'a> {
        let round = &rounds[number];
        let donor = |donor| donor_of(sheet, rounds, donor, number);
        let bits = round.donors();
        let first = bits.trailing_zeros() as usize;
        let donors = match bits.count_ones() {
            0 => [Donor::default(); 2],
            1 => [donor(first), Donor::default()],
            _ => [donor(first), donor(bits.ilog2() as usize)],
        };
        NewRound {
            sheet,
            positions,
            new_sum: round.new.sum(),
            came_here: round.came_here,
            donors,
        }
    }

    /// Chooses a lift; none if the words end.
    pub(super) fn choose(&self, reader: &mut Reader) -> Option<Choice> {
        match self.donors.map(|donor| donor.held) {
            [None, None] => self.choose_fresh(reader),
            [Some(held), None] | [None, Some(held)] => self.update(&self.factors(), held, reader),
            [Some(first), Some(second)] => {
                let factors = self.factors();
                let is_first = reader.below(factors.new)? < factors.first_odds;
                let preliminary = if is_first { first } else { second };
                self.update(&factors, preliminary, reader)
            }
        }
    }

    /// Draws among all lifts by new measure.
    fn choose_fresh(&self, reader: &mut Reader) -> Option<Choice> {
        let value = reader.below(self.new_sum)?;
        let position = self.stretch_of(value, |position| self.measures(position).1);
        Some((position, Outcome::Fresh))
    }

    /// Keeps the preliminary lift or replaces it by growth.
    fn update(&self, factors: &Factors, preliminary: usize, reader: &mut Reader) -> Option<Choice> {
        let (old_weight, new_weight) = self.weights(factors, preliminary);
        if new_weight >= old_weight || reader.below(old_weight)? < new_weight {
            return Some((preliminary, Outcome::Held));
        }
        let growth = |position| {
            let (old_weight, new_weight) = self.weights(factors, position);
            new_weight.saturating_sub(old_weight)
        };
        let growths = self.positions().map(growth);
        let value = reader.below(growths.sum())?;
        let position = self.stretch_of(value, growth);
        match self.donors.iter().any(|donor| donor.held == Some(position)) {
            true => Some((position, Outcome::Held)),
            false => Some((position, Outcome::Replaced)),
        }
    }

    /// The factors of the weights; with one donor or two.
    fn factors(&self) -> Factors {
        let [first, second] = self.donors.map(|donor| donor.old_sum);
        if self.donors[1].round == 0 {
            return Factors {
                old: [self.new_sum, 0],
                new: self.came_here,
                first_odds: 0,
            };
        }
        let from_first = self.came_from_first();
        let first_odds = (self.came_here - from_first) * first;
        Factors {
            old: [second * self.new_sum, first * self.new_sum],
            new: from_first * second + first_odds,
            first_odds,
        }
    }

    /// The old measure that came here from donor 1.
    fn came_from_first(&self) -> u64 {
        let old_places = self.positions().map(|position| self.old_place(position));
        let from_first = old_places.filter(|&(round, _)| round == self.donors[0].round);
        from_first.map(|(_, measure)| u64::from(measure)).sum()
    }

    /// The old and the new weight of the lift whose new place is at a position.
    #[inline]
    fn weights(&self, factors: &Factors, position: usize) -> (u64, u64) {
        let (old_measure, new_measure) = self.measures(position);
        let (old_round, _) = self.old_place(position);
        let donor = usize::from(old_round != self.donors[0].round);
        (old_measure * factors.old[donor], new_measure * factors.new)
    }

    /// The old measure, and the new one that counts, of the lift whose new place is at a position.
    #[inline]
    fn measures(&self, position: usize) -> (u64, u64) {
        let (_, old_measure) = self.old_place(position);
        match self.sheet[position] & MEASURE {
            NOT_COUNTED => (old_measure.into(), old_measure.into()),
            new_measure => (old_measure.into(), new_measure.into()),
        }
    }

    /// The old round and the old measure of the lift whose new place is at a position.
    #[inline]
    fn old_place(&self, position: usize) -> (usize, u32) {
        place_of(self.sheet[position - 1] & PAYLOAD)
    }

    /// The positions of the lifts' new places, in lift order.
    #[inline]
    fn positions(&self) -> impl Iterator<Item = usize> + 'a {
        self.positions.iter().map(|&position| position.into())
    }

    /// The position in whose stretch a value falls, the lengths laid end to end.
    #[inline]
    fn stretch_of(&self, value: u64, length_of: impl Fn(usize) -> u64) -> usize {
        let mut left = value;
        let mut positions = self.positions();
        let position = positions.find(|&position| {
            let length = length_of(position);
            let found = left < length;
            left = left.wrapping_sub(length);
            found
        });
        position.expect("the value is below the lengths' sum")
    }
}

/// An old round as a donor of a new one.
fn donor_of(sheet: &[u32], rounds: &Rounds, donor: usize, number: usize) -> Donor {
    let held = rounds[donor].held_position as usize;
    let (held_round, _) = place_of(sheet[held] & PAYLOAD);
    Donor {
        round: donor,
        old_sum: rounds[donor].old.sum(),
        held: (held_round == number).then_some(held),
    }
}
