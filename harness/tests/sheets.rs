//! Compares the archive's check of a sheet with the reference: the document's cases, its traps and seeded sheets.

use harness::reference::{check, read_sheet, write_sheet, SheetLift, Verdict};
use harness::seeded::Seeded;
use harness::sheets::{damaged_sheet, fitting_lifts, LIFT_DAMAGES, WORD_DAMAGES};
use harness::sheets::{held, lift, longest, numbered, EXAMPLE, NONE};
use harness::sheets::{names_of_sheet_sorts, Checked};
use harness::{archive, plain};
use std::collections::BTreeMap;

/// The largest sum and measure.
const LARGEST: u32 = 1_048_576;

/// What means "not counted" in a new place: all ones.
const NOT_COUNTED: u32 = 2_097_151;

/// The sheet of lifts numbered from 1 up.
fn sheet(lifts: &[SheetLift]) -> Vec<u32> {
    write_sheet(&numbered(lifts, 1))
}

/// A sheet that fits.
fn fits(lifts: usize, rounds: usize) -> Verdict {
    Verdict::Fits { lifts, rounds }
}

/// A sheet refused by this number at this place.
fn refused(number: u32, place: usize) -> Verdict {
    Verdict::Refused { number, place }
}

/// A verdict on which archive and reference agree.
fn agreed(sheet: &[u32]) -> Verdict {
    let expected = check(sheet);
    let proved = archive::check_sheet(sheet);
    assert_eq!(proved, expected, "{sheet:08X?}");
    expected
}

/// The agreed verdict on the sheet of lifts numbered from 1 up.
fn agreed_on(lifts: &[SheetLift]) -> Verdict {
    agreed(&sheet(lifts))
}

#[test]
fn example_fits() {
    assert_eq!(agreed(&EXAMPLE), fits(3, 1));
    let lifts = [
        lift((1, 2), (1, 4)),
        held((1, 3), (1, 1)),
        lift((1, 5), (1, 5)),
    ];
    assert_eq!(write_sheet(&numbered(&lifts, 11)), EXAMPLE);
}

#[test]
fn one_end_word_fits() {
    assert_eq!(agreed(&[0xF000_0000]), fits(0, 0));
    assert_eq!(agreed(&[0xF000_0001]), refused(5, 0));
}

#[test]
fn length_decides_first() {
    assert_eq!(agreed(&[]), refused(1, 0));
    assert_eq!(agreed(&[0; 12_389]), refused(2, 0));
    assert_eq!(agreed(&[0; 12_390]), refused(1, 12_390));
    assert_eq!(agreed(&vec![0xF000_0000; 1 << 20]), refused(1, 1 << 20));
}

#[test]
fn longest_sheet_fits() {
    let mut words = sheet(&longest());
    assert_eq!(words.len(), 12_389);
    assert_eq!(agreed(&words), fits(4_096, 100));
    words.push(0xF000_0000);
    assert_eq!(agreed(&words), refused(1, 12_390));
}

/// A sheet of so many newcomers in new round 1, whose end word gives a count.
fn newcomers(lifts: usize, count: u32) -> Vec<u32> {
    let mut words = sheet(&vec![lift(NONE, (1, 1)); lifts]);
    words[3 * lifts] = 0xF000_0000 | count;
    words
}

#[test]
fn up_to_4096_lifts_fit() {
    assert_eq!(agreed(&newcomers(4_096, 4_096)), fits(4_096, 1));
    for count in [0, 1, 4_095, 4_097] {
        assert_eq!(agreed(&newcomers(4_096, count)), refused(5, 12_288));
    }
    for count in [0, 1, 4_096, 4_097] {
        assert_eq!(agreed(&newcomers(4_097, count)), refused(5, 12_291));
    }
    for count in [0, 33, 4_096, 4_129] {
        assert_eq!(agreed(&newcomers(4_129, count)), refused(5, 12_387));
    }
}

#[test]
fn most_lifts_and_a_held_one_are_refused_at_the_end() {
    let mut lifts = vec![lift(NONE, (1, 1)); 4_128];
    lifts.push(held((1, 1), (1, 1)));
    let words = sheet(&lifts);
    assert_eq!(words.len(), 12_389);
    assert_eq!(agreed(&words), refused(5, 12_388));
}

#[test]
fn sums_up_to_the_largest_fit() {
    let old_sum = |last| [held((1, LARGEST - 2), (2, 1)), lift((1, last), (3, 1))];
    assert_eq!(agreed_on(&old_sum(2)), fits(2, 2));
    assert_eq!(agreed_on(&old_sum(3)), refused(8, 1));
    let new_sum = |last| [lift(NONE, (7, LARGEST - 2)), lift(NONE, (7, last))];
    assert_eq!(agreed_on(&new_sum(2)), fits(2, 1));
    assert_eq!(agreed_on(&new_sum(3)), refused(8, 7));
}

#[test]
fn sums_beyond_32_bits_are_too_large() {
    let new_sum = vec![lift(NONE, (3, LARGEST)); 4_096];
    assert_eq!(agreed_on(&new_sum), refused(8, 3));
    let mut old_sum = vec![lift((3, LARGEST), NONE); 4_096];
    old_sum[9].held = true;
    assert_eq!(agreed_on(&old_sum), refused(8, 3));
    old_sum[10].old_measure = 1;
    assert_eq!(agreed_on(&old_sum), refused(8, 3));
}

#[test]
fn rounds_up_to_100_fit() {
    assert_eq!(agreed_on(&[held((100, 1), (100, 1))]), fits(1, 1));
    for round in 101..=127 {
        assert_eq!(agreed_on(&[held((round, 1), (1, 1))]), refused(4, 1));
        assert_eq!(agreed_on(&[held((1, 1), (round, 1))]), refused(4, 2));
        assert_eq!(agreed_on(&[lift((round, 0), (1, 1))]), refused(4, 1));
    }
}

#[test]
fn measures_up_to_the_largest_fit() {
    assert_eq!(agreed_on(&[held((1, LARGEST), (1, LARGEST))]), fits(1, 1));
    for measure in [LARGEST + 1, LARGEST + 2, 2_097_150] {
        assert_eq!(agreed_on(&[held((1, measure), (1, 1))]), refused(4, 1));
        assert_eq!(agreed_on(&[held((1, 1), (1, measure))]), refused(4, 2));
    }
}

#[test]
fn all_ones_fit_in_a_new_place_alone() {
    for round in [1, 2, 63, 64, 99, 100] {
        let verdict = |old, new| agreed_on(&[held((round, old), (round, new))]);
        assert_eq!(verdict(1, 2_097_151), fits(1, 1));
        assert_eq!(verdict(LARGEST, 2_097_151), fits(1, 1));
        assert_eq!(verdict(1, 2_097_150), refused(4, 2));
        assert_eq!(verdict(LARGEST + 1, 2_097_151), refused(4, 1));
        assert_eq!(verdict(2_097_150, 2_097_151), refused(4, 1));
        assert_eq!(verdict(2_097_151, 1), refused(4, 1));
        assert_eq!(verdict(2_097_151, 2_097_151), refused(4, 1));
    }
}

#[test]
fn not_counted_is_in_a_real_round() {
    for round in 0..=127 {
        let (known, newcomer) = match round {
            1..=100 => (fits(1, 1), refused(16, 2)),
            _ => (refused(4, 2), refused(4, 2)),
        };
        assert_eq!(agreed_on(&[held((1, 1), (round, 2_097_151))]), known);
        assert_eq!(agreed_on(&[lift(NONE, (round, 2_097_151))]), newcomer);
        let less_1 = (round, 2_097_150);
        assert_eq!(agreed_on(&[held((1, 1), less_1)]), refused(4, 2));
        assert_eq!(agreed_on(&[lift(NONE, less_1)]), refused(4, 2));
        let in_old_place = [lift((round, 2_097_151), (1, 2_097_151))];
        assert_eq!(agreed_on(&in_old_place), refused(4, 1));
    }
}

#[test]
fn a_newcomer_is_known_by_its_old_round() {
    let others = [held((1, 1), (1, 1)), lift((1, 1), (1, 1))];
    let further = |old, new| agreed_on(&[&others[..], &[lift(old, new)]].concat());
    assert_eq!(further((1, 0), (1, NOT_COUNTED)), fits(3, 1));
    assert_eq!(further((0, 0), (1, NOT_COUNTED)), refused(16, 9));
    assert_eq!(further((0, 0), (1, 0)), fits(3, 1));
    assert_eq!(further((0, 1), (1, NOT_COUNTED)), refused(4, 8));
    assert_eq!(further((0, 0), (0, NOT_COUNTED)), refused(4, 9));
}

#[test]
fn sums_are_of_measures_filled_in() {
    let beside = |measure| {
        [
            held((1, LARGEST - 2), (1, NOT_COUNTED)),
            lift(NONE, (1, measure)),
        ]
    };
    assert_eq!(agreed_on(&beside(2)), fits(2, 1));
    assert_eq!(agreed_on(&beside(3)), refused(8, 1));
    let joined = |measure| {
        let first = held((1, LARGEST - 2), (3, NOT_COUNTED));
        [first, held((2, measure), (3, NOT_COUNTED))]
    };
    assert_eq!(agreed_on(&joined(2)), fits(2, 1));
    assert_eq!(agreed_on(&joined(3)), refused(8, 3));
    let old_sum = |measure| {
        let first = held((9, LARGEST - 2), (1, NOT_COUNTED));
        [first, lift((9, measure), (2, NOT_COUNTED))]
    };
    assert_eq!(agreed_on(&old_sum(2)), fits(2, 2));
    assert_eq!(agreed_on(&old_sum(3)), refused(8, 9));
    let all = (1..=100).map(|round| held((round, LARGEST), (7, NOT_COUNTED)));
    assert_eq!(agreed_on(&all.collect::<Vec<_>>()), refused(8, 7));
}

#[test]
fn a_sum_of_measures_filled_in_is_above_0() {
    let alone = |old| [held((1, 5), NONE), lift((1, old), (4, NOT_COUNTED))];
    assert_eq!(agreed_on(&alone(0)), refused(9, 4));
    assert_eq!(agreed_on(&alone(1)), fits(2, 1));
    let beside = |new| [&alone(0)[..], &[new]].concat();
    assert_eq!(
        agreed_on(&beside(lift((1, 0), (4, NOT_COUNTED)))),
        refused(9, 4)
    );
    assert_eq!(agreed_on(&beside(lift(NONE, (4, 0)))), refused(9, 4));
    assert_eq!(agreed_on(&beside(lift((1, 1), (4, 0)))), refused(9, 4));
    assert_eq!(agreed_on(&beside(lift(NONE, (4, 1)))), fits(3, 1));
    assert_eq!(
        agreed_on(&beside(lift((1, 1), (4, NOT_COUNTED)))),
        fits(3, 1)
    );
}

#[test]
fn donors_send_old_measures() {
    let sent = |old_round| held((old_round, 1), (9, NOT_COUNTED));
    assert_eq!(agreed_on(&[1, 2].map(sent)), fits(2, 1));
    assert_eq!(agreed_on(&[1, 2, 3].map(sent)), refused(10, 9));
    let none = [held((3, 1), NONE), lift((3, 0), (9, NOT_COUNTED))];
    assert_eq!(agreed_on(&[[1, 2].map(sent), none].concat()), fits(4, 1));
}

#[test]
fn longest_sheet_fits_without_a_count() {
    let mut lifts = longest();
    lifts
        .iter_mut()
        .for_each(|lift| lift.new_measure = NOT_COUNTED);
    assert_eq!(agreed_on(&lifts), fits(4_096, 100));
    lifts[4_095] = lift(NONE, (1, NOT_COUNTED));
    assert_eq!(agreed_on(&lifts), refused(16, 12_387));
}

#[test]
fn round_0_has_no_measure() {
    for measure in [1, LARGEST, (1 << 21) - 1] {
        assert_eq!(agreed_on(&[lift((0, measure), (1, 1))]), refused(4, 1));
        assert_eq!(agreed_on(&[lift(NONE, (0, measure))]), refused(4, 2));
    }
    assert_eq!(agreed_on(&[lift(NONE, NONE)]), fits(1, 0));
}

#[test]
fn numbers_rise_from_1() {
    let numbered = |first, second| {
        let lift = lift(NONE, (1, 1));
        [first, second].map(|number| SheetLift { number, ..lift })
    };
    let highest = (1 << 28) - 1;
    let verdict = |first, second| agreed(&write_sheet(&numbered(first, second)));
    assert_eq!(verdict(1, 2), fits(2, 1));
    assert_eq!(verdict(highest - 1, highest), fits(2, 1));
    assert_eq!(verdict(0, 1), refused(3, 0));
    assert_eq!(verdict(1, 0), refused(3, 3));
    assert_eq!(verdict(5, 5), refused(3, 3));
    assert_eq!(verdict(highest, 1), refused(3, 3));
}

/// Faults of single words of the example: position, word and the refusal's number.
const FAULTS: [(usize, u32, u32); 27] = [
    (0, 0xF000_0003, 5),
    (0, 0x1000_0000, 3),
    (0, 0x2020_0002, 2),
    (1, 0x2CA0_0001, 4),
    (1, 0x203F_FFFF, 4),
    (1, 0x3020_0002, 2),
    (2, 0x3030_0001, 4),
    (2, 0x301F_FFFF, 4),
    (2, 0xF000_0001, 2),
    (3, 0x1000_000B, 3),
    (3, 0x4000_0001, 6),
    (3, 0x5000_0000, 2),
    (4, 0x2000_0001, 4),
    (4, 0x4000_0000, 2),
    (5, 0x3000_0001, 4),
    (5, 0x3CBF_FFFF, 4),
    (5, 0x1000_000D, 2),
    (6, 0x4800_0000, 6),
    (6, 0x0000_0000, 2),
    (7, 0x1000_0001, 3),
    (7, 0x4000_0000, 2),
    (8, 0x2FE0_0000, 4),
    (8, 0x201F_FFFF, 4),
    (9, 0x303F_FFFE, 4),
    (9, 0x3FFF_FFFF, 4),
    (10, 0xF000_0002, 5),
    (10, 0xE000_0003, 2),
];

/// The example with faulty words put in.
fn faulty(faults: &[(usize, u32, u32)]) -> Vec<u32> {
    let mut words = EXAMPLE.to_vec();
    for &(position, word, _) in faults {
        words[position] = word;
    }
    words
}

#[test]
fn first_faulty_word_decides() {
    for first in FAULTS {
        let expected = refused(first.2, first.0);
        assert_eq!(agreed(&faulty(&[first])), expected);
        for second in FAULTS.into_iter().filter(|fault| fault.0 > first.0) {
            let mut words = faulty(&[first, second]);
            assert_eq!(agreed(&words), expected);
            words.push(0xF000_0003);
            assert_eq!(agreed(&words), expected);
        }
    }
}

/// A newcomer that was not counted, at words 4 to 6, between two held lifts.
const SILENT_NEWCOMER: [u32; 12] = [
    0x1000_000B,
    0x2020_0001,
    0x3020_0001,
    0x4000_0000,
    0x1000_000C,
    0x2000_0000,
    0x303F_FFFF,
    0x1000_000D,
    0x2040_0001,
    0x3040_0001,
    0x4000_0000,
    0xF000_0003,
];

/// The sheet with the newcomer that was not counted, another word put in.
fn with_silent_newcomer(position: usize, word: u32) -> Vec<u32> {
    let mut words = SILENT_NEWCOMER.to_vec();
    words[position] = word;
    words
}

#[test]
fn a_newcomer_not_counted_is_refused_at_its_word() {
    assert_eq!(agreed(&SILENT_NEWCOMER), refused(16, 6));
    for length in 7..12 {
        assert_eq!(agreed(&SILENT_NEWCOMER[..length]), refused(16, 6));
    }
    for (position, word) in [
        (7, 0x1000_000C),
        (7, 0x4000_0000),
        (8, 0x2000_0001),
        (8, 0x203F_FFFF),
        (9, 0x301F_FFFF),
        (9, 0x303F_FFFF),
        (10, 0x4000_0001),
        (11, 0xF000_0004),
        (11, 0x0000_0000),
    ] {
        let words = with_silent_newcomer(position, word);
        assert_eq!(agreed(&words), refused(16, 6), "{word:08X}");
    }
    let two = [lift(NONE, (1, NOT_COUNTED)), lift(NONE, (1, NOT_COUNTED))];
    assert_eq!(agreed_on(&two), refused(16, 2));
    assert_eq!(agreed_on(&[held(NONE, (1, NOT_COUNTED))]), refused(16, 2));
}

#[test]
fn other_faults_come_before_a_newcomer_not_counted() {
    for (position, word, number) in [
        (0, 0x1000_0000, 3),
        (1, 0x203F_FFFF, 4),
        (2, 0x301F_FFFF, 4),
        (2, 0x3CBF_FFFF, 4),
        (3, 0x4000_0001, 6),
        (4, 0x1000_000B, 3),
        (5, 0x2000_0001, 4),
        (5, 0x201F_FFFF, 4),
        (5, 0x203F_FFFF, 4),
        (5, 0x3000_0000, 2),
        (6, 0x301F_FFFF, 4),
        (6, 0x303F_FFFE, 4),
        (6, 0x3CBF_FFFF, 4),
        (6, 0x3FFF_FFFF, 4),
        (6, 0x203F_FFFF, 2),
    ] {
        let words = with_silent_newcomer(position, word);
        assert_eq!(agreed(&words), refused(number, position), "{word:08X}");
    }
    assert_eq!(agreed(&with_silent_newcomer(5, 0x2020_0000)), fits(3, 2));
    assert_eq!(
        agreed(&with_silent_newcomer(6, 0x3C9F_FFFF)),
        refused(16, 6)
    );
    let mut long = SILENT_NEWCOMER.to_vec();
    long.resize(12_390, 0);
    assert_eq!(agreed(&long), refused(1, 12_390));
    assert_eq!(agreed(&long[..12_389]), refused(16, 6));
}

#[test]
fn held_fault_comes_before_a_later_kind() {
    let words = [0x1000_0001, 0x2020_0000, 0x3020_0001, 0x4000_0000];
    assert_eq!(
        agreed(&[&words[..], &[0x7000_0000]].concat()),
        refused(6, 3)
    );
    assert_eq!(agreed(&words), refused(6, 3));
}

#[test]
fn kind_decides_before_payload() {
    let lift = [0x1000_0005, 0x2020_0001, 0x3020_0001, 0x4000_0000];
    let behind = |count: usize, word: u32| [&lift[..count], &[word]].concat();
    for (count, word) in [
        (0, 0x4000_0001),
        (0, 0x2FFF_FFFF),
        (1, 0x3FFF_FFFF),
        (1, 0x1000_0000),
        (1, 0x4000_0001),
        (2, 0x2FFF_FFFF),
        (2, 0xF000_0009),
        (3, 0x3FFF_FFFF),
        (4, 0x4000_0001),
        (4, 0x2FFF_FFFF),
    ] {
        assert_eq!(agreed(&behind(count, word)), refused(2, count));
    }
}

#[test]
fn other_kinds_are_out_of_sequence() {
    for kind in (0..16).filter(|kind| ![1, 2, 3, 4, 15].contains(kind)) {
        for position in 0..EXAMPLE.len() {
            let mut words = EXAMPLE;
            words[position] = words[position] << 4 >> 4 | kind << 28;
            assert_eq!(agreed(&words), refused(2, position));
        }
        let behind = [&EXAMPLE[..], &[kind << 28]].concat();
        assert_eq!(agreed(&behind), refused(2, 11));
    }
}

#[test]
fn missing_end_is_placed_at_the_length() {
    for length in 1..EXAMPLE.len() {
        assert_eq!(agreed(&EXAMPLE[..length]), refused(2, length));
    }
    let longest = sheet(&longest());
    assert_eq!(agreed(&longest[..12_388]), refused(2, 12_388));
}

#[test]
fn words_behind_the_end_are_refused() {
    for word in [0, 0x1000_000E, 0x4000_0000, 0xF000_0003, u32::MAX] {
        let mut words = [&EXAMPLE[..], &[word, word]].concat();
        assert_eq!(agreed(&words), refused(2, 11));
        words[10] = 0xF000_0004;
        assert_eq!(agreed(&words), refused(5, 10));
    }
    assert_eq!(agreed(&[0xF000_0000, 0xF000_0000]), refused(2, 1));
}

#[test]
fn only_a_lift_with_old_measure_is_held() {
    assert_eq!(agreed_on(&[held((1, 0), (1, 1))]), refused(6, 3));
    assert_eq!(agreed_on(&[held(NONE, (1, 1))]), refused(6, 3));
    assert_eq!(agreed_on(&[held((1, 1), (1, 1))]), fits(1, 1));
    let second = [lift((1, 1), (1, 1)), held((1, 0), (1, 1))];
    assert_eq!(agreed_on(&second), refused(6, 6));
}

#[test]
fn held_word_has_payload_0() {
    for bit in 0..28 {
        let mut words = EXAMPLE;
        words[6] |= 1 << bit;
        assert_eq!(agreed(&words), refused(6, 6));
    }
}

#[test]
fn old_round_without_measure_is_refused() {
    let lifts = [
        held((2, 1), (1, 1)),
        lift((5, 0), (1, 1)),
        lift((5, 0), NONE),
    ];
    assert_eq!(agreed_on(&lifts), refused(7, 5));
}

#[test]
fn old_round_has_exactly_one_held_lift() {
    let two = [held((9, 1), (1, 1)), held((9, 1), (2, 1))];
    assert_eq!(agreed_on(&two), refused(7, 9));
    let none = [held((9, 1), (1, 1)), lift((8, 1), (1, 1))];
    assert_eq!(agreed_on(&none), refused(7, 8));
    let (low, high) = (lift((64, 1), (1, 1)), lift((65, 1), (1, 1)));
    assert_eq!(agreed_on(&[high, low]), refused(7, 64));
}

#[test]
fn withdrawn_held_lift_counts() {
    let lifts = [held((3, 1), NONE), lift((3, 1), (1, 1))];
    assert_eq!(agreed_on(&lifts), fits(2, 1));
    assert_eq!(agreed_on(&lifts[..1]), fits(1, 0));
    let two = [held((3, 1), NONE), held((3, 1), (1, 1))];
    assert_eq!(agreed_on(&two), refused(7, 3));
}

#[test]
fn old_sums_come_before_new_sums() {
    let old_90 = [held((90, LARGEST), NONE), lift((90, 1), NONE)];
    let new_1 = [lift(NONE, (1, LARGEST)), lift(NONE, (1, 1))];
    assert_eq!(agreed_on(&new_1), refused(8, 1));
    assert_eq!(agreed_on(&[new_1, old_90].concat()), refused(8, 90));
    let old_89 = [held((89, LARGEST), NONE), lift((89, 1), NONE)];
    assert_eq!(agreed_on(&[old_90, old_89].concat()), refused(8, 89));
}

/// A lift of each of these old rounds, held there and sent to one new round.
fn sent(old_rounds: &[u32], new_round: u32) -> Vec<SheetLift> {
    let sent = |&old_round| held((old_round, 1), (new_round, 1));
    old_rounds.iter().map(sent).collect()
}

#[test]
fn each_number_is_tried_over_all_rounds() {
    let not_held = vec![lift((99, 1), NONE)];
    let old_sum = vec![held((88, LARGEST), NONE), lift((88, 1), NONE)];
    let new_sum = vec![lift(NONE, (77, LARGEST)), lift(NONE, (77, 1))];
    let sum_0 = vec![lift(NONE, (55, 0))];
    let donors = sent(&[1, 2, 3], 1);
    let cases = [
        (not_held, refused(7, 99)),
        (old_sum, refused(8, 88)),
        (new_sum, refused(8, 77)),
        (sum_0, refused(9, 55)),
        (donors, refused(10, 1)),
    ];
    for (place, (lifts, verdict)) in cases.iter().enumerate() {
        assert_eq!(agreed_on(lifts), *verdict);
        let words = sheet(&[&lifts[..], &[lift(NONE, (1, NOT_COUNTED))]].concat());
        assert_eq!(agreed(&words), refused(16, words.len() - 2));
        for (later, _) in &cases[place + 1..] {
            assert_eq!(agreed_on(&[&later[..], lifts].concat()), *verdict);
        }
    }
}

#[test]
fn new_round_of_sum_0_is_refused() {
    let lifts = [held((1, 5), (4, 0)), lift((1, 5), (4, 0))];
    assert_eq!(agreed_on(&lifts), refused(9, 4));
    let more = [lift(NONE, (100, 0)), lift(NONE, (99, 0))];
    assert_eq!(agreed_on(&more), refused(9, 99));
}

#[test]
fn up_to_two_donors_fit() {
    for old_rounds in [
        [1, 2, 3],
        [62, 63, 64],
        [63, 64, 65],
        [64, 65, 66],
        [98, 99, 100],
        [1, 64, 65],
        [36, 72, 100],
        [1, 33, 65],
    ] {
        for new_round in [1, 64, 65, 100] {
            let lifts = sent(&old_rounds, new_round);
            assert_eq!(agreed_on(&lifts), refused(10, new_round as usize));
            for left_out in 0..3 {
                let mut two = lifts.clone();
                two.remove(left_out);
                assert_eq!(agreed_on(&two), fits(2, 1));
            }
        }
    }
    let every: Vec<u32> = (1..=100).collect();
    assert_eq!(agreed_on(&sent(&every, 8)), refused(10, 8));
}

#[test]
fn donors_are_counted_by_round() {
    let rounds = [sent(&[1, 2], 5), sent(&[3, 4], 6), sent(&[65, 66], 4)].concat();
    assert_eq!(agreed_on(&rounds), fits(6, 3));
    let third = [rounds, sent(&[100], 5), sent(&[99], 6)].concat();
    assert_eq!(agreed_on(&third), refused(10, 5));
}

#[test]
fn a_donor_sends_measure_above_0() {
    let elsewhere = [held((70, 1), NONE), lift((70, 0), (1, 1))];
    let lifts = [sent(&[1, 2], 1), elsewhere.to_vec()].concat();
    assert_eq!(agreed_on(&lifts), fits(4, 1));
    let sending = [lifts, vec![lift((70, 1), (1, 0))]].concat();
    assert_eq!(agreed_on(&sending), refused(10, 1));
}

#[test]
fn newcomers_and_further_lifts_are_no_donors() {
    let lifts = [sent(&[1, 100], 1), vec![lift(NONE, (1, 1)); 5]].concat();
    assert_eq!(agreed_on(&lifts), fits(7, 1));
    let further = [lift((1, 1), (1, 1)), lift((100, 1), (1, 1))];
    assert_eq!(agreed_on(&[&lifts[..], &further].concat()), fits(9, 1));
}

/// Words of which every list is tried: each kind, well and badly filled.
const TRIED: [u32; 12] = [
    0x1000_0001,
    0x1000_0002,
    0x2000_0000,
    0x2020_0000,
    0x2020_0001,
    0x3000_0000,
    0x3020_0001,
    0x303F_FFFF,
    0x4000_0000,
    0x4000_0001,
    0xF000_0000,
    0xF000_0001,
];

/// How many sheets each number has refused, from 1 to 16, and at 0 how many fit.
type Counts = [usize; 17];

/// Compares all lists that go on from these words with up to so many more, and counts them by their numbers.
fn count_lists(words: &mut Vec<u32>, more: usize, counts: &mut Counts) {
    counts[number_of(agreed(words))] += 1;
    if more > 0 {
        for word in TRIED {
            words.push(word);
            count_lists(words, more - 1, counts);
            words.pop();
        }
    }
}

#[test]
fn all_short_lists_agree() {
    let mut counts = [0; 17];
    count_lists(&mut Vec::new(), 5, &mut counts);
    // The end alone; a newcomer, withdrawn or counted; a held lift, withdrawn, counted or not: each by two numbers.
    assert_eq!(counts[0], 1 + 2 * 2 + 2 * 3);
    // A newcomer not counted, by two numbers, with up to two words behind it.
    assert_eq!(counts[16], 2 * (1 + 12 + 12 * 12));
}

/// The document's number, 0 for a sheet that fits.
fn number_of(verdict: Verdict) -> usize {
    match verdict {
        Verdict::Refused { number, .. } => number as usize,
        Verdict::Fits { .. } => 0,
    }
}

/// Checks that each number that a sheet can be refused by has so many sheets, and that so many fit.
fn check_reached(counts: &Counts, least: usize) {
    let given = [&counts[..=10], &counts[16..]].concat();
    assert!(given.iter().all(|&sheets| sheets >= least), "{counts:?}");
}

/// So many lifts or up to 12 more, of a sheet that fits.
fn fitting(seeded: &mut Seeded, least: usize) -> Vec<SheetLift> {
    let count = least + seeded.index(13);
    fitting_lifts(seeded, count, 6)
}

#[test]
fn fitting_sheets_agree() {
    let mut seeded = Seeded::new(6);
    for _ in 0..50_000 {
        let lifts = fitting(&mut seeded, 0);
        let words = write_sheet(&lifts);
        assert_eq!(number_of(agreed(&words)), 0);
        let read = read_sheet(&words).expect("the sheet fits");
        assert_eq!(read.lifts, lifts);
    }
}

#[test]
fn each_damage_agrees_and_reaches_every_number() {
    let mut seeded = Seeded::new(7);
    let mut counts = [0; 17];
    let names = names_of_sheet_sorts().into_iter();
    let mut sorts: BTreeMap<&str, u32> = names.map(|name| (name, 0)).collect();
    for _ in 0..6_000 {
        for damage in LIFT_DAMAGES {
            let mut lifts = fitting(&mut seeded, 1);
            damage(&mut seeded, &mut lifts);
            let verdict = agreed(&write_sheet(&lifts));
            counts[number_of(verdict)] += 1;
            for name in Checked::new(lifts, verdict).sorts() {
                *sorts.get_mut(name).expect("all names are there") += 1;
            }
        }
        for damage in WORD_DAMAGES {
            let mut words = write_sheet(&fitting(&mut seeded, 0));
            damage(&mut seeded, &mut words);
            counts[number_of(agreed(&words))] += 1;
        }
    }
    check_reached(&counts, 1_000);
    assert!(sorts.values().all(|&sheets| sheets >= 500), "{sorts:#?}");
}

#[test]
fn sheets_damaged_many_times_agree() {
    let mut seeded = Seeded::new(8);
    let mut counts = [0; 17];
    for _ in 0..200_000 {
        let lifts = fitting(&mut seeded, 0);
        let words = damaged_sheet(&mut seeded, lifts, 3);
        counts[number_of(agreed(&words))] += 1;
    }
    check_reached(&counts, 1_000);
}

#[test]
fn sheets_of_full_size_agree() {
    let mut seeded = Seeded::new(9);
    let mut counts = [0; 17];
    for _ in 0..400 {
        let count = 4_080 + seeded.index(20);
        let lifts = fitting_lifts(&mut seeded, count, 300);
        counts[number_of(agreed(&write_sheet(&lifts)))] += 1;
        let words = damaged_sheet(&mut seeded, lifts, 1);
        counts[number_of(agreed(&words))] += 1;
    }
    check_reached(&counts, 1);
}

/// Whether a refusal is because of a word: 2 to 6, and 16.
fn is_of_a_word(number: u32) -> bool {
    matches!(number, 2..=6 | 16)
}

/// Checks that the bare pass gives the refusals because of a word and no other; the verdict.
fn agreed_by_bare_pass(sheet: &[u32]) -> Verdict {
    let verdict = check(sheet);
    let expected = match verdict {
        Verdict::Refused { number, place } if is_of_a_word(number) => Err((number, place)),
        _ => Ok(()),
    };
    if number_of(verdict) != 1 {
        assert_eq!(plain::read_words(sheet), expected, "{sheet:08X?}");
    }
    verdict
}

#[test]
fn bare_pass_agrees() {
    let mut seeded = Seeded::new(29);
    let mut counts = [0; 17];
    for _ in 0..100_000 {
        let lifts = fitting(&mut seeded, 0);
        let words = damaged_sheet(&mut seeded, lifts, 3);
        counts[number_of(agreed_by_bare_pass(&words))] += 1;
    }
    check_reached(&counts, 500);
    for _ in 0..200 {
        let count = 4_080 + seeded.index(20);
        let lifts = fitting_lifts(&mut seeded, count, 300);
        agreed_by_bare_pass(&damaged_sheet(&mut seeded, lifts, 1));
    }
}
