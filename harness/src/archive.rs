//! The proved functions of the archive, behind safe wrappers.

use crate::reference::{Choice, Intake, Lift, Outcome, Reply, Round, Verdict};

extern "C" {
    fn jengpilo_draw_below(
        words: *const u64,
        len: usize,
        at: usize,
        bound: u64,
        value: *mut u64,
        next: *mut usize,
    ) -> bool;

    fn jengpilo_round_select(
        rows: *const u32,
        rows_len: usize,
        donors: u8,
        first_sum: u64,
        second_sum: u64,
        held: u8,
        first_place: usize,
        second_place: usize,
        words: *const u64,
        words_len: usize,
        at: usize,
        place: *mut usize,
        outcome: *mut u32,
        next: *mut usize,
    ) -> bool;

    fn jengpilo_sheet_check(
        sheet: *const u32,
        len: usize,
        place: *mut usize,
        rounds: *mut usize,
    ) -> u32;

    fn jengpilo_panel_choose(
        sheet: *const u32,
        sheet_len: usize,
        words: *const u64,
        words_len: usize,
        start: usize,
        out: *mut u32,
        out_len: usize,
        second: *mut usize,
        third: *mut usize,
    ) -> u32;

    fn jengpilo_panel_choose_next(
        sheet: *const u32,
        sheet_len: usize,
        words: *const u64,
        words_len: usize,
        start: usize,
        out: *mut u32,
        out_len: usize,
        next: *mut u32,
        next_len: usize,
        second: *mut usize,
        third: *mut usize,
    ) -> u32;

    fn jengpilo_counts_take(
        sheet: *mut u32,
        sheet_len: usize,
        text: *const u8,
        text_len: usize,
        second: *mut usize,
        third: *mut usize,
    ) -> u32;
}

/// What the places for an answer hold before the call.
const UNWRITTEN: (u64, usize) = (0x5EED_0BAD_CAFE_F00D, 0x0DD_BA11);

/// What the second and third number of a reply are before the call.
const UNTOLD: (usize, usize) = (usize::MAX - 7, usize::MAX - 7);

/// One draw below `bound`, reading from position `at`: the value and the next position.
pub fn draw_below(words: &[u64], at: usize, bound: u64) -> Option<(u64, usize)> {
    let (mut value, mut next) = UNWRITTEN;
    // SAFETY: the words and both places live through the call, and `len` is the words' length.
    let found = unsafe {
        jengpilo_draw_below(
            words.as_ptr(),
            words.len(),
            at,
            bound,
            &mut value,
            &mut next,
        )
    };
    if found {
        return Some((value, next));
    }
    assert_eq!((value, next), UNWRITTEN, "a short draw wrote an answer");
    None
}

/// The choice of one round, reading from position `at`.
pub fn select(round: &Round, words: &[u64], at: usize) -> Option<Choice> {
    check_required(round);
    let rows: Vec<u32> = round.lifts.iter().flat_map(row_of).collect();
    let (held, first_place, second_place) = match round.held {
        [None, None] => (0, 0, 0),
        [Some(place), None] | [None, Some(place)] => (1, place, 0),
        [Some(first), Some(second)] => (2, first, second),
    };
    let unwritten = (usize::MAX - 7, u32::MAX - 7, usize::MAX - 9);
    let (mut place, mut outcome, mut next) = unwritten;
    // SAFETY: all slices and places live through the call, each length is its slice's, and what the call requires was checked.
    let found = unsafe {
        jengpilo_round_select(
            rows.as_ptr(),
            rows.len(),
            donors_of(round) as u8,
            round.old_sums[0],
            round.old_sums[1],
            held,
            first_place,
            second_place,
            words.as_ptr(),
            words.len(),
            at,
            &mut place,
            &mut outcome,
            &mut next,
        )
    };
    if found {
        return Some(Choice {
            place,
            outcome: outcome_of(outcome),
            next,
        });
    }
    assert_eq!(
        (place, outcome, next),
        unwritten,
        "a short choice wrote an answer"
    );
    None
}

/// Checks a sheet for the refusals because of the sheet.
pub fn check_sheet(sheet: &[u32]) -> Verdict {
    let unwritten = usize::MAX - 7;
    let (mut place, mut rounds) = (unwritten, unwritten);
    // SAFETY: the sheet and both places live through the call, and `len` is the sheet's length.
    let number =
        unsafe { jengpilo_sheet_check(sheet.as_ptr(), sheet.len(), &mut place, &mut rounds) };
    if number == 0 {
        let lifts = place;
        return Verdict::Fits { lifts, rounds };
    }
    assert_eq!(rounds, unwritten, "a refusal wrote the rounds");
    Verdict::Refused { number, place }
}

/// Chooses for all new rounds with words read from `start` on, and writes a pair for each.
pub fn choose_panel(sheet: &[u32], words: &[u64], start: usize, out: &mut [u32]) -> Reply {
    let (mut second, mut third) = UNTOLD;
    // SAFETY: all slices and both numbers live through the call, and each length is its slice's.
    let number = unsafe {
        jengpilo_panel_choose(
            sheet.as_ptr(),
            sheet.len(),
            words.as_ptr(),
            words.len(),
            start,
            out.as_mut_ptr(),
            out.len(),
            &mut second,
            &mut third,
        )
    };
    reply_of(number, second, third)
}

/// Chooses for all new rounds with words read from `start` on; writes a pair for each to `out` and next quarter's sheet to `next`.
pub fn choose_next(
    sheet: &[u32],
    words: &[u64],
    start: usize,
    out: &mut [u32],
    next: &mut [u32],
) -> Reply {
    let (mut second, mut third) = UNTOLD;
    // SAFETY: all slices and both numbers live through the call, and each length is its slice's.
    let number = unsafe {
        jengpilo_panel_choose_next(
            sheet.as_ptr(),
            sheet.len(),
            words.as_ptr(),
            words.len(),
            start,
            out.as_mut_ptr(),
            out.len(),
            next.as_mut_ptr(),
            next.len(),
            &mut second,
            &mut third,
        )
    };
    reply_of(number, second, third)
}

/// The reply of a call that chooses: its number, and what it told.
fn reply_of(number: u32, second: usize, third: usize) -> Reply {
    if number == 0 {
        let (choices, words) = (second, third);
        return Reply::Chosen { choices, words };
    }
    assert_eq!(third, 0, "a refusal counted words");
    let place = second;
    Reply::Refused { number, place }
}

/// Takes each line's count as its lift's new measure.
pub fn take_counts(sheet: &mut [u32], text: &[u8]) -> Intake {
    let (mut second, mut third) = UNTOLD;
    // SAFETY: sheet, text and both numbers live through the call, and each length is its slice's.
    let number = unsafe {
        jengpilo_counts_take(
            sheet.as_mut_ptr(),
            sheet.len(),
            text.as_ptr(),
            text.len(),
            &mut second,
            &mut third,
        )
    };
    assert_eq!(third, 0, "words were counted where none is read");
    match number {
        0 => Intake::Taken { lines: second },
        _ => Intake::Refused {
            number,
            place: second,
        },
    }
}

/// A lift as a row: its number, which no choice depends on, its donor (1 or 2, 0 for none), its old and its new measure.
fn row_of(lift: &Lift) -> [u32; 4] {
    let measure = |measure| u32::try_from(measure).expect("a measure fits 32 bits");
    let donor = lift.donor.map_or(0, |donor| donor as u32 + 1);
    [
        0,
        donor,
        measure(lift.old_measure),
        measure(lift.new_measure),
    ]
}

/// How many donors the round has.
fn donors_of(round: &Round) -> usize {
    (0..2).filter(|&donor| round.came_here(donor) > 0).count()
}

/// What the proved function requires: every round of a fitting sheet has it.
fn check_required(round: &Round) {
    let largest = 1 << 20;
    assert!((1..=largest).contains(&round.new_sum()));
    for donor in 0..donors_of(round) {
        let whole = u128::from(round.old_sums[donor]);
        assert!((1..=whole).contains(&round.came_here(donor)) && whole <= largest);
    }
    for (donor, held) in round.held.iter().enumerate() {
        if let Some(lift) = held.map(|place| round.lifts[place]) {
            assert!(lift.donor == Some(donor) && lift.old_measure > 0);
        }
    }
}

/// The outcome of a number of the document.
fn outcome_of(number: u32) -> Outcome {
    match number {
        1 => Outcome::Held,
        2 => Outcome::Replaced,
        3 => Outcome::Fresh,
        _ => panic!("{number} is no outcome"),
    }
}
