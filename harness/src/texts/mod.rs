//! Seeded texts of counts for the lifts of a sheet.

mod damage;
mod sorts;

pub use sorts::{names_of_sorts, Case};

use crate::reference::{write_sheet, SheetLift, LARGEST_SUM};
use crate::seeded::Seeded;
use crate::sheets::{any, any_lifts, any_such, measure, new_measures, next_count, one_of};
use crate::sheets::{empty_new_round, fill_new_round, silence_round, silence_without_measure};
use crate::sheets::{LIFT_DAMAGES, WORD_DAMAGES};
use damage::{damage_entries, damage_lines, damage_text};
use std::collections::BTreeSet;

/// A lift number and a count, each of any size.
type Entry = (u128, u128);

/// The entries of a text.
type Entries = Vec<Entry>;

/// A line without its ending.
type Line = Vec<u8>;

/// The lifts of a sheet.
type Lifts = Vec<SheetLift>;

/// Changes the new measures of lifts, of which there is at least one, or leaves lifts out.
type Measuring = fn(&mut Seeded, &mut Lifts);

/// All ways to choose what lines give; with some of them the result may not fit.
const MEASURINGS: [Measuring; 9] = [
    keep,
    split_anew,
    split_anew,
    take_small,
    fill_new_round,
    empty_new_round,
    empty_beside_silent,
    give_all_to_one,
    measure_withdrawn,
];

/// Damages to lifts that lines can cure.
const CURABLE: [Measuring; 4] = [
    fill_new_round,
    empty_new_round,
    silence_round,
    silence_without_measure,
];

/// A sheet and a text for it, each at times damaged.
pub struct Lent {
    pub sheet: Vec<u32>,
    pub text: Vec<u8>,
    /// The sheet without its damages.
    pub intact: Vec<u32>,
}

/// Any sheet with any text for it.
pub fn any_lent(seeded: &mut Seeded) -> Lent {
    let mut lifts = any_lifts(seeded);
    let intact = write_sheet(&lifts);
    match seeded.below(8) {
        _ if lifts.is_empty() => {}
        0 | 1 => any(seeded, &LIFT_DAMAGES)(seeded, &mut lifts),
        2 | 3 => any(seeded, &CURABLE)(seeded, &mut lifts),
        _ => {}
    }
    let mut sheet = write_sheet(&lifts);
    if seeded.below(8) == 0 {
        any(seeded, &WORD_DAMAGES)(seeded, &mut sheet);
    }
    let text = any_text(seeded, &lifts);
    Lent {
        sheet,
        text,
        intact,
    }
}

/// A text for these lifts: half of the time as it should be, else with damages.
pub fn any_text(seeded: &mut Seeded, lifts: &[SheetLift]) -> Vec<u8> {
    let mut entries = any_entries(seeded, lifts);
    let damaged = seeded.below(2) == 0;
    if damaged {
        damage_entries(seeded, &mut entries);
    }
    let mut lines: Vec<Line> = entries.iter().map(|entry| line_of(seeded, entry)).collect();
    if damaged {
        damage_lines(seeded, &mut lines);
    }
    let mut text = join(seeded, &lines);
    if damaged {
        damage_text(seeded, &mut text);
    }
    text
}

/// A text of a line for each of these lifts in this order, with the counts of the new measures that count.
pub fn text_of(lifts: &[SheetLift]) -> Vec<u8> {
    let entry = |lift: &SheetLift| (lift.number, 100 * lift.filled_measure());
    text_of_entries(lifts.iter().map(entry))
}

/// A quarter's counts in the order of the sheet: withdrawn lifts and one in a hundred of the others have no line.
pub fn lifelike_text(seeded: &mut Seeded, lifts: &[SheetLift]) -> Vec<u8> {
    let mut lifts = lifts.to_vec();
    lifts.retain(|lift| lift.new_round > 0 && seeded.below(100) > 0);
    let entries = lifts.iter().map(|lift| {
        let hundreds = next_count(seeded, lift.filled_measure());
        let count = (100 * hundreds).saturating_sub(seeded.below(100) as u32);
        (lift.number, count)
    });
    text_of_entries(entries)
}

/// The text of lift numbers and counts, the lines ended by CR LF.
fn text_of_entries(entries: impl Iterator<Item = (u32, u32)>) -> Vec<u8> {
    let lines = entries.map(|(number, count)| format!("{number},{count}\r\n"));
    lines.collect::<String>().into_bytes()
}

/// Entries for some of the lifts or all, in any order.
fn any_entries(seeded: &mut Seeded, lifts: &[SheetLift]) -> Entries {
    let silent = lifts.iter().filter(|lift| lift.is_silent());
    let silent: BTreeSet<u32> = silent.map(|lift| lift.number).collect();
    let mut lifts = lifts.to_vec();
    if !lifts.is_empty() {
        any(seeded, &MEASURINGS)(seeded, &mut lifts);
    }
    match seeded.below(32) {
        0 => lifts.clear(),
        1..4 => lifts.retain(|lift| lift.new_round > 0),
        4..7 => lifts.retain(|_| seeded.below(4) == 0),
        7..14 => lifts.retain(|_| seeded.below(4) > 0),
        14..22 => lifts.retain(|lift| !silent.contains(&lift.number)),
        _ => {}
    }
    match seeded.below(3) {
        0 => seeded.shuffle(&mut lifts),
        1 => lifts.reverse(),
        _ => {}
    }
    let entries = lifts.iter().map(|lift| entry_of(seeded, lift));
    entries.collect()
}

/// The entry that gives a lift the new measure that counts: the largest such count, the smallest or any.
fn entry_of(seeded: &mut Seeded, lift: &SheetLift) -> Entry {
    let rounded = seeded.below(100);
    let rounded = any(seeded, &[0, 99, rounded]);
    let count = 100 * u64::from(lift.filled_measure());
    (lift.number.into(), count.saturating_sub(rounded).into())
}

/// The line of an entry, at times with leading zeros.
fn line_of(seeded: &mut Seeded, &(number, count): &Entry) -> Line {
    let line = format!("{}{number},{}{count}", zeros(seeded), zeros(seeded));
    line.into_bytes()
}

/// Leading zeros: mostly none, at times few, at times more than any number has digits.
fn zeros(seeded: &mut Seeded) -> String {
    let count = match seeded.below(24) {
        0 => 1 + seeded.index(3),
        1 => 30 + seeded.index(40),
        _ => 0,
    };
    "0".repeat(count)
}

/// The text of these lines: LF, CR LF or either ends them, and the last may lack its ending.
fn join(seeded: &mut Seeded, lines: &[Line]) -> Vec<u8> {
    let all: [&[&[u8]]; 3] = [&[b"\n"], &[b"\r\n"], &[b"\n", b"\r\n"]];
    let endings = any(seeded, &all);
    let mut text = Vec::new();
    let mut end = 0;
    for line in lines {
        text.extend(line);
        end = text.len();
        text.extend(any(seeded, endings));
    }
    if seeded.below(3) == 0 {
        text.truncate(end);
    }
    text
}

/// The new measures stay.
fn keep(_: &mut Seeded, _: &mut Lifts) {}

/// The sum of each new round is split anew.
fn split_anew(seeded: &mut Seeded, lifts: &mut Lifts) {
    let rounds: BTreeSet<u32> = lifts.iter().map(|lift| lift.new_round).collect();
    for round in rounds.into_iter().filter(|&round| round > 0) {
        measure(seeded, new_measures(lifts, round));
    }
}

/// The new measures are small, or 0.
fn take_small(seeded: &mut Seeded, lifts: &mut Lifts) {
    for lift in lifts.iter_mut().filter(|lift| lift.new_round > 0) {
        lift.new_measure = seeded.below(3) as u32;
    }
}

/// A new round in which a lift of old measure 0 was not counted has measures of 0; lifts that were not counted are left out.
fn empty_beside_silent(seeded: &mut Seeded, lifts: &mut Lifts) {
    let silent = |lift: &SheetLift| lift.is_silent() && lift.old_measure == 0;
    let round = any_such(seeded, lifts, silent).map(|lift| lift.new_round);
    lifts.retain(|lift| !lift.is_silent());
    for measure in round.map_or(Vec::new(), |round| new_measures(lifts, round)) {
        *measure = 0;
    }
}

/// A lift has the largest measure and the others of its new round have 0.
fn give_all_to_one(seeded: &mut Seeded, lifts: &mut Lifts) {
    if let Some(lift) = any_such(seeded, lifts, |lift| lift.new_round > 0) {
        let (number, round) = (lift.number, lift.new_round);
        for lift in lifts.iter_mut().filter(|lift| lift.new_round == round) {
            lift.new_measure = LARGEST_SUM * u32::from(lift.number == number);
        }
    }
}

/// Withdrawn lifts have measures, one of them or more.
fn measure_withdrawn(seeded: &mut Seeded, lifts: &mut Lifts) {
    let mut measures = new_measures(lifts, 0);
    if !measures.is_empty() {
        for _ in 0..1 + seeded.index(2 * measures.len()) {
            **one_of(seeded, &mut measures) = any(seeded, &[1, LARGEST_SUM]);
        }
    }
}
