//! The sheet: its words, its lifts and what it is refused for.

use std::collections::{BTreeMap, BTreeSet};

/// The most lifts a sheet has.
pub const MOST_LIFTS: usize = 4_096;

/// The most words a sheet has.
pub const LONGEST_SHEET: usize = 12_389;

/// The highest round.
pub const MOST_ROUNDS: u32 = 100;

/// The largest sum of a round's measures, and so the largest measure.
pub const LARGEST_SUM: u32 = 1_048_576;

/// What stands for the measure in a new place of a real round if the lift was not counted: all ones.
pub const NOT_COUNTED: u32 = 2_097_151;

// The kinds of words.
const LIFT: u32 = 1;
const OLD_PLACE: u32 = 2;
const NEW_PLACE: u32 = 3;
const HELD: u32 = 4;
const END: u32 = 15;

// How many low bits of a word are its payload, and of a place's payload its measure.
const PAYLOAD_BITS: u32 = 28;
const MEASURE_BITS: u32 = 21;

/// A lift of a sheet.
#[derive(Clone, Copy, Debug, PartialEq, Eq)]
pub struct SheetLift {
    pub number: u32,
    /// 0 for a newcomer.
    pub old_round: u32,
    pub old_measure: u32,
    /// 0 for a withdrawn lift.
    pub new_round: u32,
    /// As written: `NOT_COUNTED` if its modem was silent.
    pub new_measure: u32,
    /// Whether it carries the recorder.
    pub held: bool,
}

impl SheetLift {
    /// Whether its modem was silent, so that it was not counted.
    pub fn is_silent(&self) -> bool {
        self.new_measure == NOT_COUNTED
    }

    /// The new measure that counts: a lift that was not counted has its old one.
    pub fn filled_measure(&self) -> u32 {
        match self.is_silent() {
            true => self.old_measure,
            false => self.new_measure,
        }
    }
}

/// What a sheet is found to be; the numbers are the document's.
#[derive(Clone, Copy, Debug, PartialEq, Eq)]
pub enum Verdict {
    /// Refused by this number at this place.
    Refused { number: u32, place: usize },
    /// How many lifts it has and how many new rounds they name.
    Fits { lifts: usize, rounds: usize },
}

/// A refusal's number and place.
pub type Refusal = (u32, usize);

/// The rounds from 1 up that lifts name, each with its lifts in lift order.
pub type LiftsByRound = BTreeMap<u32, Vec<SheetLift>>;

/// The lifts of a sheet, by their old rounds and by their new ones.
pub struct Sheet {
    pub lifts: Vec<SheetLift>,
    pub old_rounds: LiftsByRound,
    pub new_rounds: LiftsByRound,
}

/// Checks a sheet for the refusals because of the sheet.
pub fn check(sheet: &[u32]) -> Verdict {
    match read_sheet(sheet) {
        Ok(sheet) => Verdict::Fits {
            lifts: sheet.lifts.len(),
            rounds: sheet.new_rounds.len(),
        },
        Err((number, place)) => Verdict::Refused { number, place },
    }
}

/// Reads a sheet that fits; refusals 1 to 10, and 16.
pub fn read_sheet(sheet: &[u32]) -> Result<Sheet, Refusal> {
    let lifts = read_lifts(sheet)?;
    let sheet = Sheet {
        old_rounds: by_round(&lifts, |lift| lift.old_round),
        new_rounds: by_round(&lifts, |lift| lift.new_round),
        lifts,
    };
    check_rounds(&sheet)?;
    Ok(sheet)
}

/// Writes lifts as a sheet.
pub fn write_sheet(lifts: &[SheetLift]) -> Vec<u32> {
    let mut sheet = Vec::new();
    for lift in lifts {
        sheet.push(word(LIFT, lift.number));
        sheet.push(place_word(OLD_PLACE, lift.old_round, lift.old_measure));
        sheet.push(place_word(NEW_PLACE, lift.new_round, lift.new_measure));
        sheet.extend(lift.held.then_some(word(HELD, 0)));
    }
    sheet.push(word(END, lifts.len() as u32));
    sheet
}

/// A word of a kind and its payload.
pub(super) fn word(kind: u32, payload: u32) -> u32 {
    kind << PAYLOAD_BITS | payload
}

/// A place's word.
pub(super) fn place_word(kind: u32, round: u32, measure: u32) -> u32 {
    word(kind, round << MEASURE_BITS | measure)
}

/// A word's kind.
fn kind_of(word: u32) -> u32 {
    word >> PAYLOAD_BITS
}

/// A word's payload.
pub(super) fn payload_of(word: u32) -> u32 {
    word & ((1 << PAYLOAD_BITS) - 1)
}

/// The round and measure of a place's payload.
pub(super) fn place_of(payload: u32) -> (u32, u32) {
    (payload >> MEASURE_BITS, payload & ((1 << MEASURE_BITS) - 1))
}

/// Reads the lifts; refusals 1 to 6, and 16.
pub fn read_lifts(sheet: &[u32]) -> Result<Vec<SheetLift>, Refusal> {
    if sheet.is_empty() || sheet.len() > LONGEST_SHEET {
        return Err((1, sheet.len()));
    }
    let mut words = Words { sheet, next: 0 };
    let mut lifts = Vec::new();
    let mut number_before = 0;
    while words.next_is(LIFT) {
        let lift = words.take_lift(number_before)?;
        number_before = lift.number;
        lifts.push(lift);
    }
    words.take_end(lifts.len())?;
    Ok(lifts)
}

/// A sheet's words and the position of the next to take.
struct Words<'a> {
    sheet: &'a [u32],
    next: usize,
}

impl Words<'_> {
    /// Whether there is a next word and it is of this kind.
    fn next_is(&self, kind: u32) -> bool {
        let next = self.sheet.get(self.next);
        next.is_some_and(|&word| kind_of(word) == kind)
    }

    /// Takes a payload: refusal 2 without a word of this kind, `number` if the payload does not fit.
    fn take(&mut self, kind: u32, number: u32, fits: impl Fn(u32) -> bool) -> Result<u32, Refusal> {
        let place = self.next;
        if !self.next_is(kind) {
            return Err((2, place));
        }
        self.next += 1;
        let payload = payload_of(self.sheet[place]);
        match fits(payload) {
            true => Ok(payload),
            false => Err((number, place)),
        }
    }

    /// Takes the words of a lift.
    fn take_lift(&mut self, number_before: u32) -> Result<SheetLift, Refusal> {
        let number = self.take(LIFT, 3, |number| number > number_before)?;
        let (old_round, old_measure) = place_of(self.take(OLD_PLACE, 4, old_place_fits)?);
        let (new_round, new_measure) = place_of(self.take_new_place(old_round)?);
        let held = self.next_is(HELD);
        if held {
            self.take(HELD, 6, |payload| payload == 0 && old_measure > 0)?;
        }
        Ok(SheetLift {
            number,
            old_round,
            old_measure,
            new_round,
            new_measure,
            held,
        })
    }

    /// Takes the payload of a new place, given the old round; refusals 2 and 4, then 16 for a newcomer that was not counted.
    fn take_new_place(&mut self, old_round: u32) -> Result<u32, Refusal> {
        let place = self.next;
        let payload = self.take(NEW_PLACE, 4, new_place_fits)?;
        match place_of(payload) {
            (_, NOT_COUNTED) if old_round == 0 => Err((16, place)),
            _ => Ok(payload),
        }
    }

    /// Takes the end word, behind which there is no other.
    fn take_end(&mut self, lifts: usize) -> Result<(), Refusal> {
        self.take(END, 5, |count| {
            count as usize == lifts && lifts <= MOST_LIFTS
        })?;
        match self.next == self.sheet.len() {
            true => Ok(()),
            false => Err((2, self.next)),
        }
    }
}

/// Whether an old place's payload has none of the faults of refusal 4.
fn old_place_fits(payload: u32) -> bool {
    let (round, measure) = place_of(payload);
    round <= MOST_ROUNDS && measure <= LARGEST_SUM && (round > 0 || measure == 0)
}

/// Whether a new place's payload has none of the faults of refusal 4: in a real round it may be not counted.
fn new_place_fits(payload: u32) -> bool {
    match place_of(payload) {
        (1..=MOST_ROUNDS, NOT_COUNTED) => true,
        _ => old_place_fits(payload),
    }
}

/// Gathers the lifts of each round from 1 up.
fn by_round(lifts: &[SheetLift], round_of: impl Fn(&SheetLift) -> u32) -> LiftsByRound {
    let mut lists = vec![Vec::new(); MOST_ROUNDS as usize + 1];
    for lift in lifts {
        lists[round_of(lift) as usize].push(*lift);
    }
    let rounds = (0..).zip(lists).skip(1);
    rounds.filter(|(_, lifts)| !lifts.is_empty()).collect()
}

/// Checks the rounds; refusals 7 to 10.
fn check_rounds(sheet: &Sheet) -> Result<(), Refusal> {
    let (old_rounds, new_rounds) = (&sheet.old_rounds, &sheet.new_rounds);
    let largest = u64::from(LARGEST_SUM);
    refuse_first(7, old_rounds, |lifts| held_count(lifts) != 1)?;
    refuse_first(8, old_rounds, |lifts| old_sum(lifts) > largest)?;
    refuse_first(8, new_rounds, |lifts| new_sum(lifts) > largest)?;
    refuse_first(9, new_rounds, |lifts| new_sum(lifts) == 0)?;
    refuse_first(10, new_rounds, |lifts| donors(lifts).len() > 2)
}

/// Refuses by the number if a round's lifts are faulty; the place is the lowest such round.
fn refuse_first(
    number: u32,
    rounds: &LiftsByRound,
    faulty: impl Fn(&[SheetLift]) -> bool,
) -> Result<(), Refusal> {
    match rounds.iter().find(|(_, lifts)| faulty(lifts)) {
        Some((&round, _)) => Err((number, round as usize)),
        None => Ok(()),
    }
}

/// How many lifts are held.
fn held_count(lifts: &[SheetLift]) -> usize {
    lifts.iter().filter(|lift| lift.held).count()
}

/// The sum of the old measures.
pub fn old_sum(lifts: &[SheetLift]) -> u64 {
    lifts.iter().map(|lift| u64::from(lift.old_measure)).sum()
}

/// The sum of the new measures that count.
pub fn new_sum(lifts: &[SheetLift]) -> u64 {
    let measures = lifts.iter().map(|lift| u64::from(lift.filled_measure()));
    measures.sum()
}

/// The old rounds that send measure with these lifts of a new round.
pub fn donors(lifts: &[SheetLift]) -> BTreeSet<u32> {
    let sending = lifts.iter().filter(|lift| lift.old_measure > 0);
    sending.map(|lift| lift.old_round).collect()
}
