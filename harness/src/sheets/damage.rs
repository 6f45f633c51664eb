//! Ways to damage a sheet. After some of them it may still fit.

use super::{any, any_round, new_measures, number_lifts};
use crate::reference::{new_sum, old_sum, write_sheet, SheetLift};
use crate::reference::{LARGEST_SUM, LONGEST_SHEET, MOST_ROUNDS, NOT_COUNTED};
use crate::seeded::Seeded;
use std::collections::BTreeSet;

/// The lifts of a sheet.
type Lifts = Vec<SheetLift>;

/// The words of a sheet.
type Sheet = Vec<u32>;

/// Damages lifts, of which there is at least one.
type LiftDamage = fn(&mut Seeded, &mut Lifts);

/// Damages words, of which there is at least one.
type WordDamage = fn(&mut Seeded, &mut Sheet);

/// All ways to damage lifts.
pub const LIFT_DAMAGES: [LiftDamage; 25] = [
    repeat_number,
    zero_number,
    exceed_rounds,
    exceed_measure,
    measure_round_0,
    hold_without_measure,
    drop_mark,
    add_mark,
    empty_old_round,
    empty_new_round,
    fill_old_round,
    fill_new_round,
    take_largest_measure,
    change_old_round,
    change_new_round,
    withdraw,
    add_donors,
    silence_any,
    silence_newcomer,
    silence_newcomer_beside_4,
    silence_old_place,
    silence_without_round,
    silence_round,
    silence_without_measure,
    take_ones_less_1,
];

/// Ways to damage a place so that it is refused by 4.
const PLACE_DAMAGES: [LiftDamage; 6] = [
    exceed_rounds,
    exceed_measure,
    measure_round_0,
    silence_old_place,
    silence_without_round,
    take_ones_less_1,
];

/// All ways to damage words.
pub const WORD_DAMAGES: [WordDamage; 13] = [
    flip_bits,
    change_kind,
    change_word,
    swap_words,
    insert_word,
    delete_word,
    change_count,
    fill_held_word,
    fill_measure,
    cut_short,
    write_behind_end,
    lengthen,
    change_all_words,
];

/// The sheet of these lifts after up to so many damages of either sort, half of the time to lifts alone.
pub fn damaged_sheet(seeded: &mut Seeded, mut lifts: Lifts, most: usize) -> Sheet {
    for _ in 0..seeded.index(most + 1) {
        if !lifts.is_empty() {
            any(seeded, &LIFT_DAMAGES)(seeded, &mut lifts);
        }
    }
    let mut sheet = write_sheet(&lifts);
    let most_to_words = any(seeded, &[0, most]);
    for _ in 0..seeded.index(most_to_words + 1) {
        if !sheet.is_empty() {
            any(seeded, &WORD_DAMAGES)(seeded, &mut sheet);
        }
    }
    sheet
}

/// One of the items, of which there is at least one, to be changed.
pub(crate) fn one_of<'a, T>(seeded: &mut Seeded, items: &'a mut [T]) -> &'a mut T {
    &mut items[seeded.index(items.len())]
}

/// One of the items that are as wanted, if there are any.
pub(crate) fn any_such<'a, T>(
    seeded: &mut Seeded,
    items: &'a mut [T],
    wanted: fn(&T) -> bool,
) -> Option<&'a mut T> {
    let such: Vec<&mut T> = items.iter_mut().filter(|item| wanted(item)).collect();
    let place = seeded.index(such.len().max(1));
    such.into_iter().nth(place)
}

/// The round and measure of one of the old or new places.
fn any_place<'a>(seeded: &mut Seeded, lifts: &'a mut [SheetLift]) -> (&'a mut u32, &'a mut u32) {
    let lift = one_of(seeded, lifts);
    match seeded.below(2) {
        0 => (&mut lift.old_round, &mut lift.old_measure),
        _ => (&mut lift.new_round, &mut lift.new_measure),
    }
}

/// A lift's number is the one before or lower.
fn repeat_number(seeded: &mut Seeded, lifts: &mut Lifts) {
    let place = seeded.index(lifts.len());
    let before = place
        .checked_sub(1)
        .map_or(0, |before| lifts[before].number);
    lifts[place].number = match seeded.below(2) {
        0 => before,
        _ => seeded.below(u64::from(before) + 1) as u32,
    };
}

/// A lift's number is 0.
fn zero_number(seeded: &mut Seeded, lifts: &mut Lifts) {
    one_of(seeded, lifts).number = 0;
}

/// A round is above the highest.
fn exceed_rounds(seeded: &mut Seeded, lifts: &mut Lifts) {
    let beyond = 127 - MOST_ROUNDS;
    *any_place(seeded, lifts).0 = MOST_ROUNDS + 1 + seeded.below(beyond.into()) as u32;
}

/// A measure is above the largest, by 1 or more, and not all ones.
fn exceed_measure(seeded: &mut Seeded, lifts: &mut Lifts) {
    let beyond = any(seeded, &[1, NOT_COUNTED - 1 - LARGEST_SUM]);
    *any_place(seeded, lifts).1 = LARGEST_SUM + 1 + seeded.below(beyond.into()) as u32;
}

/// A place has round 0 and a measure.
fn measure_round_0(seeded: &mut Seeded, lifts: &mut Lifts) {
    let (round, measure) = any_place(seeded, lifts);
    *round = 0;
    *measure = 1 + seeded.below(LARGEST_SUM.into()) as u32;
}

/// A lift of old measure 0 is held.
fn hold_without_measure(seeded: &mut Seeded, lifts: &mut Lifts) {
    if let Some(lift) = any_such(seeded, lifts, |lift| lift.old_measure == 0) {
        lift.held = true;
    }
}

/// A held lift is no longer held.
fn drop_mark(seeded: &mut Seeded, lifts: &mut Lifts) {
    if let Some(lift) = any_such(seeded, lifts, |lift| lift.held) {
        lift.held = false;
    }
}

/// A further lift is held.
fn add_mark(seeded: &mut Seeded, lifts: &mut Lifts) {
    if let Some(lift) = any_such(seeded, lifts, |lift| !lift.held && lift.old_measure > 0) {
        lift.held = true;
    }
}

/// An old round's measures are all 0 and none of its lifts is held.
fn empty_old_round(seeded: &mut Seeded, lifts: &mut Lifts) {
    let round = one_of(seeded, lifts).old_round;
    for lift in lifts.iter_mut().filter(|lift| lift.old_round == round) {
        lift.old_measure = 0;
        lift.held = false;
    }
}

/// A new round's measures are all 0.
pub(crate) fn empty_new_round(seeded: &mut Seeded, lifts: &mut Lifts) {
    let round = one_of(seeded, lifts).new_round;
    for measure in new_measures(lifts, round) {
        *measure = 0;
    }
}

/// An old round's sum is the largest or one more.
fn fill_old_round(seeded: &mut Seeded, lifts: &mut Lifts) {
    let place = seeded.index(lifts.len());
    let mut others = lifts.clone();
    let round = others.swap_remove(place).old_round;
    others.retain(|lift| lift.old_round == round);
    lifts[place].old_measure = rest(seeded, old_sum(&others));
}

/// A new round's sum is the largest or one more.
pub(crate) fn fill_new_round(seeded: &mut Seeded, lifts: &mut Lifts) {
    let place = seeded.index(lifts.len());
    let mut others = lifts.clone();
    let round = others.swap_remove(place).new_round;
    others.retain(|lift| lift.new_round == round);
    lifts[place].new_measure = rest(seeded, new_sum(&others));
}

/// The measure that makes a sum the largest or one more, 0 if it is more already.
fn rest(seeded: &mut Seeded, sum: u64) -> u32 {
    let wanted = u64::from(LARGEST_SUM) + seeded.below(2);
    wanted.saturating_sub(sum) as u32
}

/// A measure is the largest.
fn take_largest_measure(seeded: &mut Seeded, lifts: &mut Lifts) {
    *any_place(seeded, lifts).1 = LARGEST_SUM;
}

/// A lift has another old round.
fn change_old_round(seeded: &mut Seeded, lifts: &mut Lifts) {
    one_of(seeded, lifts).old_round = any_round(seeded);
}

/// A lift has another new round.
fn change_new_round(seeded: &mut Seeded, lifts: &mut Lifts) {
    one_of(seeded, lifts).new_round = any_round(seeded);
}

/// A lift is withdrawn.
fn withdraw(seeded: &mut Seeded, lifts: &mut Lifts) {
    let lift = one_of(seeded, lifts);
    (lift.new_round, lift.new_measure) = (0, 0);
}

/// The rounds that no lift names.
fn unnamed_rounds(lifts: &[SheetLift], round_of: fn(&SheetLift) -> u32) -> Vec<u32> {
    let named: BTreeSet<u32> = lifts.iter().map(round_of).collect();
    let unnamed = (1..=MOST_ROUNDS).filter(|round| !named.contains(round));
    unnamed.collect()
}

/// A new round gets the only lift of a further old round each, up to four times.
fn add_donors(seeded: &mut Seeded, lifts: &mut Lifts) {
    let new_round = one_of(seeded, lifts).new_round;
    let mut unnamed = unnamed_rounds(lifts, |lift| lift.old_round);
    for _ in 0..unnamed.len().min(1 + seeded.index(4)) {
        let added = SheetLift {
            number: 0,
            old_round: unnamed.swap_remove(seeded.index(unnamed.len())),
            old_measure: 1 + seeded.below(12) as u32,
            new_round,
            new_measure: 0,
            held: true,
        };
        lifts.insert(seeded.index(lifts.len() + 1), added);
    }
    number_lifts(seeded, lifts);
}

/// A lift is not counted.
fn silence_any(seeded: &mut Seeded, lifts: &mut Lifts) {
    one_of(seeded, lifts).new_measure = NOT_COUNTED;
}

/// One newcomer or two are not counted.
fn silence_newcomer(seeded: &mut Seeded, lifts: &mut Lifts) {
    let newcomer = |lift: &SheetLift| lift.old_round == 0 && lift.new_round > 0;
    for _ in 0..1 + seeded.index(2) {
        if let Some(lift) = any_such(seeded, lifts, newcomer) {
            lift.new_measure = NOT_COUNTED;
        }
    }
}

/// A newcomer is not counted, and a place is refused by 4: often another, at times the same.
fn silence_newcomer_beside_4(seeded: &mut Seeded, lifts: &mut Lifts) {
    silence_newcomer(seeded, lifts);
    any(seeded, &PLACE_DAMAGES)(seeded, lifts);
}

/// An old place has all ones for its measure.
fn silence_old_place(seeded: &mut Seeded, lifts: &mut Lifts) {
    one_of(seeded, lifts).old_measure = NOT_COUNTED;
}

/// A lift, often a newcomer, is not counted in round 0 or in one above the highest.
fn silence_without_round(seeded: &mut Seeded, lifts: &mut Lifts) {
    let wanted: fn(&SheetLift) -> bool = match seeded.below(2) {
        0 => |lift| lift.old_round == 0,
        _ => |_| true,
    };
    if let Some(lift) = any_such(seeded, lifts, wanted) {
        lift.new_round = any(seeded, &[0, MOST_ROUNDS + 1, 127]);
        lift.new_measure = NOT_COUNTED;
    }
}

/// The lifts of a new round are not counted but for newcomers, which have measure 0.
pub(crate) fn silence_round(seeded: &mut Seeded, lifts: &mut Lifts) {
    let round = one_of(seeded, lifts).new_round;
    for lift in lifts.iter_mut().filter(|lift| lift.new_round == round) {
        lift.new_measure = match lift.old_round {
            0 => 0,
            _ => NOT_COUNTED,
        };
    }
}

/// A lift of old measure 0, often alone in its new round, is not counted.
pub(crate) fn silence_without_measure(seeded: &mut Seeded, lifts: &mut Lifts) {
    let unnamed = unnamed_rounds(lifts, |lift| lift.new_round);
    let lift = any_such(seeded, lifts, |lift| lift.old_round > 0 && !lift.held);
    if let (Some(lift), false) = (lift, unnamed.is_empty()) {
        if lift.new_round == 0 || seeded.below(2) == 0 {
            lift.new_round = any(seeded, &unnamed);
        }
        (lift.old_measure, lift.new_measure) = (0, NOT_COUNTED);
    }
}

/// A measure is all ones less 1.
fn take_ones_less_1(seeded: &mut Seeded, lifts: &mut Lifts) {
    *any_place(seeded, lifts).1 = NOT_COUNTED - 1;
}

/// A word: mostly of a kind of the sheet's, with a small payload, a place, at times one of all ones, or any.
fn any_word(seeded: &mut Seeded) -> u32 {
    let kind = match seeded.below(8) {
        0 => seeded.below(16) as u32,
        _ => any(seeded, &[1, 2, 3, 4, 15]),
    };
    let payload = match seeded.below(4) {
        0 => seeded.below(6) as u32,
        1 => any_round(seeded) << 21 | seeded.below(12) as u32,
        2 => any_round(seeded) << 21 | NOT_COUNTED,
        _ => seeded.below(1 << 28) as u32,
    };
    kind << 28 | payload
}

/// Up to three bits of a word are flipped.
fn flip_bits(seeded: &mut Seeded, sheet: &mut Sheet) {
    let word = one_of(seeded, sheet);
    for _ in 0..1 + seeded.index(3) {
        *word ^= 1 << seeded.below(32);
    }
}

/// A word is of any kind.
fn change_kind(seeded: &mut Seeded, sheet: &mut Sheet) {
    let word = one_of(seeded, sheet);
    *word = *word << 4 >> 4 | (seeded.below(16) as u32) << 28;
}

/// A word is any.
fn change_word(seeded: &mut Seeded, sheet: &mut Sheet) {
    *one_of(seeded, sheet) = any_word(seeded);
}

/// Two words change places.
fn swap_words(seeded: &mut Seeded, sheet: &mut Sheet) {
    let (one, other) = (seeded.index(sheet.len()), seeded.index(sheet.len()));
    sheet.swap(one, other);
}

/// A word is put in: any, or a copy.
fn insert_word(seeded: &mut Seeded, sheet: &mut Sheet) {
    let words = [any_word(seeded), any(seeded, sheet)];
    sheet.insert(seeded.index(sheet.len() + 1), any(seeded, &words));
}

/// A word is taken out.
fn delete_word(seeded: &mut Seeded, sheet: &mut Sheet) {
    sheet.remove(seeded.index(sheet.len()));
}

/// The last word's payload is one more, one less or any.
fn change_count(seeded: &mut Seeded, sheet: &mut Sheet) {
    let last = sheet.len() - 1;
    let any_count = seeded.word() as u32;
    let more = any(seeded, &[1, u32::MAX, any_count]);
    sheet[last] = sheet[last] >> 28 << 28 | sheet[last].wrapping_add(more) << 4 >> 4;
}

/// A held word has a payload.
fn fill_held_word(seeded: &mut Seeded, sheet: &mut Sheet) {
    if let Some(word) = any_such(seeded, sheet, |word| *word >> 28 == 4) {
        *word |= 1 << seeded.below(28);
    }
}

/// A place has all ones for its measure.
fn fill_measure(seeded: &mut Seeded, sheet: &mut Sheet) {
    if let Some(word) = any_such(seeded, sheet, |word| [2, 3].contains(&(*word >> 28))) {
        *word |= NOT_COUNTED;
    }
}

/// The words end early.
fn cut_short(seeded: &mut Seeded, sheet: &mut Sheet) {
    sheet.truncate(seeded.index(sheet.len()));
}

/// Up to three words follow: any, or copies.
fn write_behind_end(seeded: &mut Seeded, sheet: &mut Sheet) {
    for _ in 0..1 + seeded.index(3) {
        let words = [any_word(seeded), any(seeded, sheet)];
        sheet.push(any(seeded, &words));
    }
}

/// The sheet is as long as the longest, or up to three words longer.
fn lengthen(seeded: &mut Seeded, sheet: &mut Sheet) {
    sheet.resize(LONGEST_SHEET + seeded.index(4), any(seeded, sheet));
}

/// Each word is any.
fn change_all_words(seeded: &mut Seeded, sheet: &mut Sheet) {
    sheet.fill_with(|| any_word(seeded));
}
