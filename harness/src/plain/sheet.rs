//! A sheet's words read in one pass, and the tables of its rounds.

use super::{Refusal, MEASURE, MEASURE_BITS, MOST_ROUNDS, PAYLOAD, PAYLOAD_BITS, ROUNDS};
use crate::reference::{LARGEST_SUM, LONGEST_SHEET, MOST_LIFTS, NOT_COUNTED};

// The kinds of words.
pub(super) const LIFT: u32 = 1;
pub(super) const OLD_PLACE: u32 = 2;
pub(super) const NEW_PLACE: u32 = 3;
pub(super) const HELD: u32 = 4;
pub(super) const END: u32 = 15;

/// A round and a measure.
pub(super) type Place = (usize, u32);

/// A lift as its words give it.
pub(super) struct Lift {
    pub number: u32,
    /// Where its new place stands.
    pub position: usize,
    pub old: Place,
    /// The new place with the measure that counts.
    pub new: Place,
    pub held: bool,
}

/// How many lifts there are and the sum of their measures, in one number, so that one addition counts a lift in both.
#[derive(Clone, Copy, Default)]
pub(super) struct Tally(u64);

impl Tally {
    /// How many low bits are the count of lifts; the sum has the others, of which it needs 33.
    const LIFT_BITS: u32 = 16;

    /// Adds a lift.
    #[inline(always)]
    fn add(&mut self, measure: u32) {
        self.0 += (u64::from(measure) << Self::LIFT_BITS) + 1;
    }

    /// How many lifts there are.
    pub(super) fn lifts(self) -> usize {
        self.0 as usize % (1 << Self::LIFT_BITS)
    }

    /// The sum of their measures.
    pub(super) fn sum(self) -> u64 {
        self.0 >> Self::LIFT_BITS
    }

    /// Puts a measure in the place of another.
    pub(super) fn change(&mut self, before: u32, measure: u32) {
        self.0 -= u64::from(before) << Self::LIFT_BITS;
        self.0 += u64::from(measure) << Self::LIFT_BITS;
    }
}

/// What the lifts of an old round and of the new round of the same number have; each is in one line of the cache.
#[derive(Clone, Copy, Default)]
#[repr(align(64))]
pub(super) struct Round {
    pub old: Tally,
    pub new: Tally,
    /// The old measure that came into the new round.
    pub came_here: u64,
    /// The old rounds that send the new one measure, a bit each.
    donors: [u64; 2],
    /// How many of the old round's lifts are held, and where the new place of the last of them stands.
    pub held: u32,
    pub held_position: u32,
}

impl Round {
    /// The old rounds that send the new one measure, a bit each.
    pub(super) fn donors(&self) -> u128 {
        u128::from(self.donors[1]) << 64 | u128::from(self.donors[0])
    }
}

/// The rounds by their numbers; 0 stands for none.
pub(super) type Rounds = [Round; ROUNDS];

/// Reads a sheet into the tables of the rounds and hands on each lift; refusals 1 to 6, and 16.
#[inline(always)]
pub(super) fn read_sheet(
    sheet: &[u32],
    rounds: &mut Rounds,
    mut each: impl FnMut(&Lift),
) -> Result<(), Refusal> {
    if sheet.is_empty() || sheet.len() > LONGEST_SHEET {
        return Err((1, sheet.len()));
    }
    read_lifts(sheet, |lift| {
        add_to_rounds(rounds, &lift);
        each(&lift);
    })
}

/// Adds a lift to its old round and its new one.
#[inline(always)]
fn add_to_rounds(rounds: &mut Rounds, lift: &Lift) {
    let (old_round, old_measure) = lift.old;
    let (new_round, new_measure) = lift.new;
    let old = &mut rounds[old_round];
    old.old.add(old_measure);
    if lift.held {
        old.held += 1;
        old.held_position = lift.position as u32;
    }
    let new = &mut rounds[new_round];
    new.new.add(new_measure);
    new.came_here += u64::from(old_measure);
    new.donors[old_round / 64] |= u64::from(old_measure > 0) << (old_round % 64);
}

/// Reads the words one by one and hands on each lift; refusals 2 to 6, and 16.
#[inline(always)]
fn read_lifts(sheet: &[u32], mut each: impl FnMut(Lift)) -> Result<(), Refusal> {
    let (mut next, mut before, mut lifts) = (0, 0, 0);
    while let Some(number) = payload(sheet, next, LIFT) {
        if number <= before {
            return Err((3, next));
        }
        before = number;
        let lift = read_places(sheet, next + 2, number)?;
        next = lift.position + 1 + usize::from(lift.held);
        each(lift);
        lifts += 1;
    }
    read_end(sheet, next, lifts)
}

/// Reads the places and the held word of a lift whose new place stands at a position; refusals 2, 4, 6 and 16.
#[inline(always)]
fn read_places(sheet: &[u32], position: usize, number: u32) -> Result<Lift, Refusal> {
    let old = read_old_place(sheet, position - 1)?;
    let new = read_new_place(sheet, position, old)?;
    let mark = payload(sheet, position + 1, HELD);
    match mark {
        Some(mark) if mark > 0 || old.1 == 0 => Err((6, position + 1)),
        _ => Ok(Lift {
            number,
            position,
            old,
            new,
            held: mark.is_some(),
        }),
    }
}

/// An old place; refusals 2 and 4.
#[inline(always)]
fn read_old_place(sheet: &[u32], at: usize) -> Result<Place, Refusal> {
    let payload = payload_as(sheet, at, OLD_PLACE)?;
    match has_measure(payload) {
        true => Ok(place_of(payload)),
        false if payload > PAYLOAD => Err((2, at)),
        false => Err((4, at)),
    }
}

/// A new place with the measure that counts, given the old place; refusals 2, 4 and 16.
#[inline(always)]
fn read_new_place(sheet: &[u32], at: usize, old: Place) -> Result<Place, Refusal> {
    let payload = payload_as(sheet, at, NEW_PLACE)?;
    match has_measure(payload) {
        true => Ok(place_of(payload)),
        false if payload > PAYLOAD => Err((2, at)),
        false => fill_in(place_of(payload), at, old),
    }
}

/// The old measure in a new place that has none itself, if the lift was not counted; refusals 4 and 16.
#[inline(always)]
pub(super) fn fill_in(place: Place, at: usize, old: Place) -> Result<Place, Refusal> {
    match place {
        (1..=MOST_ROUNDS, NOT_COUNTED) if old.0 == 0 => Err((16, at)),
        (round @ 1..=MOST_ROUNDS, NOT_COUNTED) => Ok((round, old.1)),
        _ => Err((4, at)),
    }
}

/// Reads the end word, behind which there is no other; refusals 2 and 5.
fn read_end(sheet: &[u32], at: usize, lifts: usize) -> Result<(), Refusal> {
    let count = payload(sheet, at, END).ok_or((2, at))? as usize;
    if count != lifts || count > MOST_LIFTS {
        return Err((5, at));
    }
    match at + 1 == sheet.len() {
        true => Ok(()),
        false => Err((2, at + 1)),
    }
}

/// The payload of the word at a position, if there is one of this kind.
#[inline(always)]
fn payload(sheet: &[u32], at: usize, kind: u32) -> Option<u32> {
    let payload = payload_as(sheet, at, kind).ok()?;
    (payload <= PAYLOAD).then_some(payload)
}

/// The payload of the word at a position if it is of this kind, else a number above all payloads; refusal 2 without a word.
#[inline(always)]
fn payload_as(sheet: &[u32], at: usize, kind: u32) -> Result<u32, Refusal> {
    let word = sheet.get(at).ok_or((2, at))?;
    Ok(word.wrapping_sub(kind << PAYLOAD_BITS))
}

/// The place of a payload.
#[inline(always)]
pub(super) fn place_of(payload: u32) -> Place {
    ((payload >> MEASURE_BITS) as usize, payload & MEASURE)
}

/// Whether a place's payload is of a round up to the highest and has a measure up to the largest, which is 0 in round 0.
#[inline(always)]
pub(super) fn has_measure(payload: u32) -> bool {
    let highest = (MOST_ROUNDS as u32) << MEASURE_BITS | MEASURE;
    // Round 0 with a measure is from 1 up to all ones.
    payload <= highest && payload & MEASURE <= LARGEST_SUM && payload.wrapping_sub(1) >= MEASURE
}

/// Checks the rounds; refusals 7 to 10.
pub(super) fn check_rounds(rounds: &Rounds) -> Result<(), Refusal> {
    let largest = u64::from(LARGEST_SUM);
    refuse_first(rounds, 7, |round| round.old.lifts() > 0 && round.held != 1)?;
    refuse_first(rounds, 8, |round| round.old.sum() > largest)?;
    refuse_first(rounds, 8, |round| round.new.sum() > largest)?;
    refuse_first(rounds, 9, |round| {
        round.new.lifts() > 0 && round.new.sum() == 0
    })?;
    refuse_first(rounds, 10, |round| round.donors().count_ones() > 2)
}

/// Refuses by the number if a round from 1 up is faulty; the place is the lowest such round.
fn refuse_first(
    rounds: &Rounds,
    number: u32,
    faulty: impl Fn(&Round) -> bool,
) -> Result<(), Refusal> {
    match (1..=MOST_ROUNDS).find(|&round| faulty(&rounds[round])) {
        Some(round) => Err((number, round)),
        None => Ok(()),
    }
}
