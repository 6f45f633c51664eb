//! Compares the archive's taking of counts with the reference: the request's numbers, its traps, short texts and seeded texts.

use harness::reference::{read_lifts, write_sheet, Intake, SheetLift};
use harness::seeded::Seeded;
use harness::sheets::{filled_in, fitting_lifts, held, lift, longest, numbered, EXAMPLE, NONE};
use harness::texts::{any_lent, any_text, names_of_sorts, text_of, Case, Lent};
use harness::{archive, plain, reference};
use std::collections::BTreeMap;

/// The largest sum and measure.
const LARGEST: u32 = 1_048_576;

/// What means "not counted" in a new place: all ones.
const NOT_COUNTED: u32 = 2_097_151;

/// Takes counts into a sheet.
type Taker = fn(&mut [u32], &[u8]) -> Intake;

/// The words on either side of the sheet, not lent: an end word and a lift follow.
const MARKS: [u32; 4] = [0xF000_0003, 0x1000_000E, 0x2020_0001, 0x3020_0001];

/// The reply and the sheet at exit; words on both sides of the sheet and a byte behind the text are not lent.
fn run(take: Taker, sheet: &[u32], text: &[u8]) -> (Intake, Vec<u32>) {
    let mut words = [&MARKS, sheet, &MARKS].concat();
    let (before, lent) = words.split_at_mut(MARKS.len());
    let (lent, behind) = lent.split_at_mut(sheet.len());
    let next_byte = if text.ends_with(b"\r") { b'\n' } else { b'9' };
    let bytes = [text, &[next_byte]].concat();
    let reply = take(lent, &bytes[..text.len()]);
    assert!(*before == MARKS && *behind == MARKS, "{sheet:08X?}");
    (reply, lent.to_vec())
}

/// A reply and a sheet at exit on which archive and reference agree; a refusal leaves the sheet as it was.
fn agreed_sheet(sheet: &[u32], text: &[u8]) -> (Intake, Vec<u32>) {
    let expected = run(reference::take_counts, sheet, text);
    let proved = run(archive::take_counts, sheet, text);
    let shown = text.escape_ascii();
    assert!(
        proved == expected,
        "{:?} for {:?}\n{shown}\n{sheet:08X?}\n{:08X?}",
        proved.0,
        expected.0,
        proved.1
    );
    if let Intake::Refused { .. } = expected.0 {
        assert_eq!(expected.1, sheet, "{shown}");
    }
    expected
}

/// A reply on which archive and reference agree, their sheets at exit too.
fn agreed(sheet: &[u32], text: &str) -> Intake {
    agreed_sheet(sheet, text.as_bytes()).0
}

/// So many lines taken.
fn taken(lines: usize) -> Intake {
    Intake::Taken { lines }
}

/// Refused by this number at this place.
fn refused(number: u32, place: usize) -> Intake {
    Intake::Refused { number, place }
}

/// The sheet of lifts numbered from 1 up.
fn sheet(lifts: &[SheetLift]) -> Vec<u32> {
    write_sheet(&numbered(lifts, 1))
}

/// The agreed reply to the sheet of lifts numbered from 1 up.
fn agreed_on(lifts: &[SheetLift], text: &str) -> Intake {
    agreed(&sheet(lifts), text)
}

/// The example with these new measures.
fn example_with(measures: [u32; 3]) -> Vec<u32> {
    let mut words = EXAMPLE;
    for (position, measure) in [2, 5, 9].into_iter().zip(measures) {
        words[position] = 0x3020_0000 | measure;
    }
    words.to_vec()
}

/// Checks that a text is taken into the example, with these new measures after it.
fn check_taken(text: &str, lines: usize, measures: [u32; 3]) {
    check_changed([4, 1, 5], text, lines, measures);
}

/// Checks that a text is taken into the example with these new measures, and which are there after it.
fn check_changed(before: [u32; 3], text: &str, lines: usize, after: [u32; 3]) {
    let (reply, words) = agreed_sheet(&example_with(before), text.as_bytes());
    assert_eq!(reply, taken(lines), "{text:?}");
    assert_eq!(words, example_with(after), "{text:?}");
}

#[test]
fn counts_become_new_measures() {
    check_taken("11,300\n12,250\n13,1\n", 3, [3, 3, 1]);
    check_taken("13,1\n11,300\n12,250\n", 3, [3, 3, 1]);
    check_taken("13,700\n", 1, [4, 1, 7]);
    check_taken("12,0\n11,0\n", 2, [0, 0, 5]);
    check_taken("", 0, [4, 1, 5]);
}

#[test]
fn counts_are_rounded_up_to_hundreds() {
    check_taken("11,0", 1, [0, 1, 5]);
    for (count, measure) in [
        (1, 1),
        (99, 1),
        (100, 1),
        (101, 2),
        (199, 2),
        (200, 2),
        (201, 3),
        (104_857_500, 1_048_575),
        (104_857_501, 1_048_576),
        (104_857_599, 1_048_576),
        (104_857_600, 1_048_576),
    ] {
        let text = format!("11,{count}\n12,0\n13,0\n");
        check_taken(&text, 3, [measure, 0, 0]);
    }
}

#[test]
fn counts_up_to_the_largest_have_the_form() {
    let text = |count: &str| format!("12,0\n13,0\n11,{count}\n");
    assert_eq!(agreed(&EXAMPLE, &text("104857600")), taken(3));
    assert_eq!(agreed(&EXAMPLE, &text("104857601")), refused(14, 3));
    assert_eq!(agreed(&EXAMPLE, &text("104857700")), refused(14, 3));
    assert_eq!(agreed(&EXAMPLE, &text("1048576000")), refused(14, 3));
    // No count is so large that its measure would be all ones.
    assert_eq!(agreed(&EXAMPLE, &text("209715100")), refused(14, 3));
}

#[test]
fn numbers_up_to_the_highest_have_the_form() {
    let highest = write_sheet(&numbered(&[lift(NONE, (1, 1)); 2], 268_435_454));
    assert_eq!(agreed(&highest, "268435455,5"), taken(1));
    assert_eq!(agreed(&highest, "268435456,5"), refused(14, 1));
    assert_eq!(agreed(&highest, "268435454,5"), taken(1));
    assert_eq!(agreed(&highest, "268435453,5"), refused(15, 1));
    assert_eq!(agreed(&EXAMPLE, "268435455,5"), refused(15, 1));
    assert_eq!(agreed(&EXAMPLE, "268435456,5"), refused(14, 1));
}

#[test]
fn leading_zeros_are_allowed() {
    for zeros in [1, 2, 9, 10, 20, 30, 40, 300, 70_000] {
        let zeros = "0".repeat(zeros);
        let text = format!("{zeros}11,{zeros}300\n{zeros}12,{zeros}\n");
        check_taken(&text, 2, [3, 0, 5]);
        let above = format!("{zeros}11,{zeros}104857601\n");
        assert_eq!(agreed(&EXAMPLE, &above), refused(14, 1));
        let above = format!("{zeros}268435456,{zeros}1\n");
        assert_eq!(agreed(&EXAMPLE, &above), refused(14, 1));
    }
}

#[test]
fn longer_numbers_are_no_smaller_ones() {
    // 2^28, 2^29, 2^32, 2^33, 2^63, 2^64, 2^65 and 2^128, each with 11 more; and 2^32, 2^64 and 2^128 with 100 more.
    for number in [
        "268435467",
        "536870923",
        "4294967307",
        "8589934603",
        "9223372036854775819",
        "18446744073709551627",
        "36893488147419103243",
        "340282366920938463463374607431768211467",
    ] {
        assert_eq!(agreed(&EXAMPLE, &format!("{number},1")), refused(14, 1));
        assert_eq!(agreed(&EXAMPLE, &format!("11,{number}")), refused(14, 1));
    }
    for count in [
        "4294967396",
        "18446744073709551716",
        "340282366920938463463374607431768211556",
    ] {
        assert_eq!(agreed(&EXAMPLE, &format!("11,{count}")), refused(14, 1));
    }
    for digit in 1..=9 {
        let digits = digit.to_string().repeat(70_000);
        assert_eq!(agreed(&EXAMPLE, &format!("11,{digits}")), refused(14, 1));
        assert_eq!(agreed(&EXAMPLE, &format!("{digits},1")), refused(14, 1));
    }
    let zeros = "0".repeat(70_000);
    assert_eq!(agreed(&EXAMPLE, &format!("11,1{zeros}")), refused(14, 1));
    assert_eq!(agreed(&EXAMPLE, &format!("11{zeros},1")), refused(14, 1));
}

#[test]
fn lines_end_by_lf_or_cr_lf() {
    for first in ["\n", "\r\n"] {
        for second in ["\n", "\r\n"] {
            for last in ["", "\n", "\r\n"] {
                let text = format!("11,300{first}12,250{second}13,1{last}");
                check_taken(&text, 3, [3, 3, 1]);
            }
        }
    }
}

#[test]
fn other_endings_are_another_form() {
    for (text, line) in [
        ("11,1\r", 1),
        ("11,1\n12,1\r", 2),
        ("11,1\r\n12,1\r\n13,1\r", 3),
        ("11,1\r12,1\n", 1),
        ("11,1\r12,1\r\n", 1),
        ("11,1\r\r\n", 1),
        ("11,1\n12,1\r\r\n13,1\n", 2),
        ("11,1\n\r12,1\n", 2),
        ("11,1\n\r", 2),
        ("1\r1,1\n", 1),
        ("11\r,1\n", 1),
        ("11,\r1\n", 1),
        ("\r11,1\n", 1),
        ("\r", 1),
        ("\r\r\n", 1),
        ("11,1\u{b}12,1\n", 1),
        ("11,1\u{c}\n", 1),
        ("11,1\u{85}\n", 1),
        ("11,1\u{2028}12,1\n", 1),
    ] {
        assert_eq!(agreed(&EXAMPLE, text), refused(14, line), "{text:?}");
    }
}

#[test]
fn an_empty_line_is_another_form() {
    for (text, line) in [
        ("\n", 1),
        ("\r\n", 1),
        ("\n11,1\n", 1),
        ("11,1\n\n", 2),
        ("11,1\r\n\r\n", 2),
        ("11,1\n\n12,1\n", 2),
        ("11,1\n12,1\n13,1\n\r\n", 4),
    ] {
        assert_eq!(agreed(&EXAMPLE, text), refused(14, line), "{text:?}");
    }
}

/// Lines of another form, separated by bars.
const OTHER_FORMS: [&str; 7] = [
    "11|,|11,|,1|,,|11,,1|,11,1|11,1,|11,1,2|11,1,12,1",
    " 11,1|11 ,1|11, 1|11,1 |1 1,1| |\t11,1|11,1\t",
    "+11,1|11,+1|-11,1|11,-1|11,-0|-0,1",
    "\"11\",1|11,\"1\"|\"11\",\"1\"|\"11,1\"|'11',1",
    "11;1|11:1|11.1|11.0,1|11,1.0|11,1e2|0x0B,1|11,0x1|B,1|11,A|11,1x|x11,1|lift,count|11,1_000",
    "11,\u{661}|\u{ff11}1,1|\u{feff}11,1|11,1\u{a0}|\0|11\0,1|11,1\0|\x0011,1",
    "/1,1|:1,1|1/,1|1:,1|11,/|11,:|11,1/|11,1:",
];

#[test]
fn other_forms_are_refused_where_they_stand() {
    for line in OTHER_FORMS.iter().flat_map(|lines| lines.split('|')) {
        for ending in ["", "\n", "\r\n", "\n12,0\n", "\r\n14,0", "\n\n"] {
            let first = format!("{line}{ending}");
            assert_eq!(agreed(&EXAMPLE, &first), refused(14, 1), "{first:?}");
            let second = format!("13,5\n{line}{ending}");
            assert_eq!(agreed(&EXAMPLE, &second), refused(14, 2), "{second:?}");
        }
    }
}

#[test]
fn every_byte_is_tried_in_every_position() {
    let mut counts = [0; 16];
    for byte in 0..=u8::MAX {
        for position in 0..=4 {
            let mut text = b"11,1".to_vec();
            text.insert(position, byte);
            counts[number_of(agreed_sheet(&EXAMPLE, &text).0)] += 1;
        }
    }
    // Taken: 0 before all, ten digits before the 1, ten digits and LF behind it. Absent: nine, ten and ten digits in the number.
    let (taken, absent) = (1 + 10 + 11, 9 + 10 + 10);
    assert_eq!(counts[0], taken);
    assert_eq!(counts[15], absent);
    assert_eq!(counts[14], 5 * 256 - taken - absent);
}

/// The document's number, 0 for counts taken.
fn number_of(reply: Intake) -> usize {
    match reply {
        Intake::Refused { number, .. } => number as usize,
        Intake::Taken { .. } => 0,
    }
}

#[test]
fn absent_lifts_are_refused() {
    for number in ["0", "00", "1", "10", "14", "110", "1112", "268435455"] {
        assert_eq!(agreed(&EXAMPLE, &format!("{number},1")), refused(15, 1));
        let third = format!("13,1\r\n11,1\r\n{number},1\r\n12,1\r\n");
        assert_eq!(agreed(&EXAMPLE, &third), refused(15, 3));
        let ended = format!("{number},1\n");
        assert_eq!(agreed(&[0xF000_0000], &ended), refused(15, 1));
    }
    assert_eq!(agreed(&[0xF000_0000], ""), taken(0));
    assert_eq!(agreed(&[0xF000_0000], "\n"), refused(14, 1));
}

#[test]
fn a_lift_has_one_line() {
    for lift in ["11", "12", "13"] {
        let second = format!("{lift},1\n{lift},1\n");
        assert_eq!(agreed(&EXAMPLE, &second), refused(15, 2));
        let other_zeros = format!("{lift},1\n0{lift},0");
        assert_eq!(agreed(&EXAMPLE, &other_zeros), refused(15, 2));
        let fourth = format!("13,1\n12,1\n11,1\n{lift},1");
        assert_eq!(agreed(&EXAMPLE, &fourth), refused(15, 4));
    }
    // A count of 0, and one that changes nothing, are lines too.
    assert_eq!(agreed(&EXAMPLE, "11,0\n11,0\n"), refused(15, 2));
    assert_eq!(agreed(&EXAMPLE, "11,400\n11,400\n"), refused(15, 2));
}

#[test]
fn first_faulty_line_decides() {
    assert_eq!(agreed(&EXAMPLE, "14,1\nx\n"), refused(15, 1));
    assert_eq!(agreed(&EXAMPLE, "x\n14,1\n"), refused(14, 1));
    assert_eq!(agreed(&EXAMPLE, "11,1\n11,1\n\n"), refused(15, 2));
    assert_eq!(agreed(&EXAMPLE, "11,1\n\n11,1\n"), refused(14, 2));
    assert_eq!(agreed(&EXAMPLE, "11,1\n14,1\n11,1\n12,"), refused(15, 2));
}

#[test]
fn form_decides_before_the_lift() {
    for count in ["", "x", "104857601", "1,1", " 1", "1\r\r"] {
        assert_eq!(agreed(&EXAMPLE, &format!("14,{count}\n")), refused(14, 1));
        assert_eq!(agreed(&EXAMPLE, &format!("0,{count}\n")), refused(14, 1));
        let again = format!("11,1\n11,{count}\n");
        assert_eq!(agreed(&EXAMPLE, &again), refused(14, 2));
    }
}

/// The example with a word in another's place.
fn example_but(position: usize, word: u32) -> Vec<u32> {
    let mut words = EXAMPLE.to_vec();
    words[position] = word;
    words
}

#[test]
fn the_sheet_lent_decides_before_the_lines() {
    let cases = [
        (vec![], refused(1, 0)),
        (vec![0xF000_0000; 12_390], refused(1, 12_390)),
        (vec![0xF000_0000; 12_389], refused(2, 1)),
        (EXAMPLE[..10].to_vec(), refused(2, 10)),
        (example_but(4, 0x1000_000D), refused(2, 4)),
        (example_but(3, 0x1000_000B), refused(3, 3)),
        (example_but(0, 0x1000_0000), refused(3, 0)),
        (example_but(1, 0x2CA0_0001), refused(4, 1)),
        (example_but(2, 0x3CA0_0001), refused(4, 2)),
        (example_but(5, 0x3030_0001), refused(4, 5)),
        (example_but(9, 0x3000_0001), refused(4, 9)),
        (example_but(9, 0x301F_FFFF), refused(4, 9)),
        (example_but(9, 0x3CBF_FFFF), refused(4, 9)),
        (example_but(9, 0x303F_FFFE), refused(4, 9)),
        (example_but(8, 0x203F_FFFF), refused(4, 8)),
        (example_but(10, 0xF000_0004), refused(5, 10)),
        (example_but(6, 0x4000_0001), refused(6, 6)),
        (example_but(4, 0x2020_0000), refused(6, 6)),
    ];
    for (words, expected) in cases {
        for text in ["", "12,100\n", "14,1\n", "x", "\n", "11,104857601"] {
            assert_eq!(agreed(&words, text), expected, "{text:?}");
        }
    }
}

#[test]
fn up_to_4096_lifts_are_counted() {
    let newcomers = |count| sheet(&vec![lift(NONE, (1, 1)); count]);
    assert_eq!(agreed(&newcomers(4_096), "4096,100\n1,100\n"), taken(2));
    assert_eq!(agreed(&newcomers(4_096), "4097,100\n"), refused(15, 1));
    assert_eq!(agreed(&newcomers(4_097), "1,100\n"), refused(5, 12_291));
    assert_eq!(agreed(&newcomers(4_129), "x"), refused(5, 12_387));
}

/// Lifts that 7 to 10 refuse, and the refusal.
fn refused_by_rounds() -> [(Vec<SheetLift>, Intake); 6] {
    let sent = [1, 2, 3].map(|old_round| held((old_round, 1), (1, 1)));
    let old_sum = [held((88, LARGEST), NONE), lift((88, 1), NONE)];
    let new_sum = [lift(NONE, (77, LARGEST)), lift(NONE, (77, 1))];
    [
        (vec![lift((99, 1), (1, 1))], refused(7, 99)),
        (vec![held((99, 1), (1, 1)); 2], refused(7, 99)),
        (old_sum.to_vec(), refused(8, 88)),
        (new_sum.to_vec(), refused(8, 77)),
        (vec![lift(NONE, (55, 0))], refused(9, 55)),
        (sent.to_vec(), refused(10, 1)),
    ]
}

#[test]
fn the_lines_decide_before_the_rounds() {
    for (lifts, expected) in refused_by_rounds() {
        assert_eq!(agreed_on(&lifts, ""), expected);
        assert_eq!(agreed_on(&lifts, "1,x"), refused(14, 1));
        assert_eq!(agreed_on(&lifts, "4,1"), refused(15, 1));
        assert_eq!(agreed_on(&lifts, "1,0\n\n"), refused(14, 2));
        assert_eq!(agreed_on(&lifts, "1,0\n1,0\n"), refused(15, 2));
    }
}

#[test]
fn lines_cure_new_sums_alone() {
    let [not_held, two_held, old_sum, new_sum, sum_0, donors] = refused_by_rounds();
    assert_eq!(agreed_on(&new_sum.0, "2,0"), taken(1));
    assert_eq!(agreed_on(&new_sum.0, "1,104857500"), taken(1));
    assert_eq!(agreed_on(&new_sum.0, "1,104857501"), refused(8, 77));
    assert_eq!(agreed_on(&sum_0.0, "1,1"), taken(1));
    assert_eq!(agreed_on(&sum_0.0, "1,0"), refused(9, 55));
    assert_eq!(agreed_on(&old_sum.0, "1,0\n2,0"), old_sum.1);
    for (lifts, expected) in [not_held, two_held, donors] {
        assert_eq!(agreed_on(&lifts, "1,100"), expected);
        assert_eq!(agreed_on(&lifts, "1,500"), expected);
    }
}

#[test]
fn a_withdrawn_lift_has_no_count() {
    let lifts = [
        lift(NONE, (1, 1)),
        held((1, 1), NONE),
        lift(NONE, NONE),
        lift(NONE, (1, 1)),
    ];
    assert_eq!(agreed_on(&lifts, "2,0\n3,0\n"), taken(2));
    assert_eq!(agreed_on(&lifts, "2,1\n"), refused(4, 5));
    assert_eq!(agreed_on(&lifts, "3,1\n"), refused(4, 9));
    assert_eq!(agreed_on(&lifts, "3,104857600\n"), refused(4, 9));
    assert_eq!(agreed_on(&lifts, "2,1\n3,1\n"), refused(4, 5));
    assert_eq!(agreed_on(&lifts, "3,1\n2,1\n"), refused(4, 5));
    assert_eq!(agreed_on(&lifts, "3,1\n2,0\n"), refused(4, 9));
    assert_eq!(agreed_on(&lifts, "3,1\n2,1\n5,1\n"), refused(15, 3));
    assert_eq!(agreed_on(&lifts, "3,1\n2,1\n2,1,\n"), refused(14, 3));
}

#[test]
fn a_count_for_a_withdrawn_lift_comes_before_the_rounds() {
    for (lifts, expected) in refused_by_rounds() {
        let lifts = [&lifts[..], &[lift(NONE, NONE)]].concat();
        let number = lifts.len();
        assert_eq!(agreed_on(&lifts, &format!("{number},0")), expected);
        let at_its_place = refused(4, sheet(&lifts).len() - 2);
        assert_eq!(agreed_on(&lifts, &format!("{number},1")), at_its_place);
    }
}

#[test]
fn sums_of_the_result_go_up_to_the_largest() {
    let lifts = [lift(NONE, (7, 1)), lift(NONE, (7, 2)), lift(NONE, (8, 1))];
    assert_eq!(agreed_on(&lifts, "1,104857400"), taken(1));
    assert_eq!(agreed_on(&lifts, "1,104857401"), refused(8, 7));
    assert_eq!(agreed_on(&lifts, "1,104857600\n2,0"), taken(2));
    assert_eq!(agreed_on(&lifts, "1,104857600\n2,1"), refused(8, 7));
    assert_eq!(agreed_on(&lifts, "1,104857600\n2,104857600"), refused(8, 7));
    assert_eq!(agreed_on(&lifts, "3,104857600\n"), taken(1));
}

#[test]
fn sums_of_the_result_are_above_0() {
    let lifts = [lift(NONE, (7, 1)), lift(NONE, (7, 2)), lift(NONE, (6, 1))];
    assert_eq!(agreed_on(&lifts, "1,0\n"), taken(1));
    assert_eq!(agreed_on(&lifts, "1,0\n2,0\n"), refused(9, 7));
    assert_eq!(agreed_on(&lifts, "1,0\n2,1\n"), taken(2));
    assert_eq!(agreed_on(&lifts, "1,0\n2,0\n3,0"), refused(9, 6));
}

#[test]
fn a_line_counts_a_lift_that_was_not_counted() {
    let silent = [NOT_COUNTED; 3];
    check_changed(silent, "", 0, silent);
    check_changed(silent, "12,700\n", 1, [NOT_COUNTED, 7, NOT_COUNTED]);
    check_changed(silent, "12,300\n", 1, [NOT_COUNTED, 3, NOT_COUNTED]);
    check_changed(silent, "12,0\n", 1, [NOT_COUNTED, 0, NOT_COUNTED]);
    check_changed(silent, "13,100\n11,0\n", 2, [0, NOT_COUNTED, 1]);
    check_changed(silent, "13,0\n11,0\n12,104857600\n", 3, [0, LARGEST, 0]);
    check_changed([NOT_COUNTED, 1, 5], "13,900\n", 1, [NOT_COUNTED, 1, 9]);
    check_changed([4, NOT_COUNTED, 5], "12,1\n13,1\n", 2, [4, 1, 1]);
}

#[test]
fn sums_of_the_result_are_of_measures_filled_in() {
    // Lifts 11, 12, 13 have old measures 2, 3, 5.
    let silent = example_with([NOT_COUNTED; 3]);
    assert_eq!(agreed(&silent, "11,104856800"), taken(1));
    assert_eq!(agreed(&silent, "11,104856801"), refused(8, 1));
    assert_eq!(agreed(&silent, "13,104857100"), taken(1));
    assert_eq!(agreed(&silent, "13,104857101"), refused(8, 1));
    assert_eq!(agreed(&silent, "12,104857600\n11,0\n13,0"), taken(3));
    assert_eq!(agreed(&silent, "12,104857600\n11,0"), refused(8, 1));
    assert_eq!(agreed(&silent, "11,0\n12,0\n"), taken(2));
    assert_eq!(agreed(&silent, "11,0\n12,0\n13,0\n"), refused(9, 1));
    let without_measure = lift((1, 0), (4, NOT_COUNTED));
    let lifts = [held((1, 5), NONE), without_measure, lift(NONE, (4, 1))];
    assert_eq!(agreed_on(&lifts, "3,1"), taken(1));
    assert_eq!(agreed_on(&lifts, "3,0"), refused(9, 4));
    assert_eq!(agreed_on(&lifts, "3,0\n2,0"), refused(9, 4));
    assert_eq!(agreed_on(&lifts, "3,0\n2,1"), taken(2));
}

#[test]
fn lines_cure_sums_of_measures_filled_in() {
    let full = [held((1, LARGEST), (1, NOT_COUNTED)), lift(NONE, (1, 1))];
    assert_eq!(agreed_on(&full, ""), refused(8, 1));
    assert_eq!(agreed_on(&full, "2,1"), refused(8, 1));
    assert_eq!(agreed_on(&full, "2,0"), taken(1));
    assert_eq!(agreed_on(&full, "1,104857501"), refused(8, 1));
    assert_eq!(agreed_on(&full, "1,104857500"), taken(1));
    assert_eq!(agreed_on(&full, "1,0"), taken(1));
    let empty = [held((1, 5), NONE), lift((1, 0), (4, NOT_COUNTED))];
    assert_eq!(agreed_on(&empty, ""), refused(9, 4));
    assert_eq!(agreed_on(&empty, "2,0"), refused(9, 4));
    assert_eq!(agreed_on(&empty, "2,1"), taken(1));
}

#[test]
fn a_newcomer_not_counted_is_refused_before_the_lines() {
    let lifts = [held((1, 1), (1, 1)), lift(NONE, (1, NOT_COUNTED))];
    let known = [held((1, 1), (1, 1)), lift((1, 0), (1, NOT_COUNTED))];
    for (text, known_reply) in [
        ("", taken(0)),
        ("2,100\n", taken(1)),
        ("2,0\n", taken(1)),
        ("1,100\n", taken(1)),
        ("1,0\n", refused(9, 1)),
        ("2,1\n1,1\n", taken(2)),
        ("2,1\n2,1\n", refused(15, 2)),
        ("3,1\n", refused(15, 1)),
        ("2,x\n", refused(14, 1)),
        ("2,104857601\n", refused(14, 1)),
        ("\n", refused(14, 1)),
    ] {
        assert_eq!(agreed_on(&lifts, text), refused(16, 6), "{text:?}");
        assert_eq!(agreed_on(&known, text), known_reply, "{text:?}");
    }
    for (others, _) in refused_by_rounds() {
        let words = sheet(&[&others[..], &lifts[1..]].concat());
        let number = others.len() + 1;
        let text = format!("{number},100\n");
        assert_eq!(agreed(&words, &text), refused(16, words.len() - 2));
    }
}

#[test]
fn every_lift_of_the_longest_sheet_is_counted() {
    let mut lifts = longest();
    let lent = write_sheet(&lifts);
    assert_eq!(lent.len(), 12_389);
    for lift in &mut lifts {
        lift.new_measure = NOT_COUNTED;
    }
    let silent = write_sheet(&lifts);
    for lift in &mut lifts {
        lift.new_measure = lift.number;
    }
    let counted = (taken(4_096), write_sheet(&lifts));
    for _ in 0..2 {
        let text = text_of(&lifts);
        assert!(agreed_sheet(&lent, &text) == counted);
        assert!(agreed_sheet(&silent, &text) == counted);
        for (line, number) in [("4097,1", 15), ("1,1", 15), ("4096,1", 15), ("1", 14)] {
            let more = [&text, line.as_bytes()].concat();
            assert_eq!(agreed_sheet(&lent, &more).0, refused(number, 4_097));
        }
        lifts.reverse();
    }
}

/// Bytes of which every text is tried.
const TRIED: [u8; 6] = *b"012,\r\n";

/// Compares all texts that go on from this one with up to so many more bytes, and counts the replies by their numbers.
fn count_replies(sheet: &[u32], text: &mut Vec<u8>, more: usize, counts: &mut [u32; 16]) {
    counts[number_of(agreed_sheet(sheet, text).0)] += 1;
    if more > 0 {
        for byte in TRIED {
            text.push(byte);
            count_replies(sheet, text, more - 1, counts);
            text.pop();
        }
    }
}

#[test]
fn all_short_texts_agree() {
    let mut counts = [0; 16];
    let sheet = sheet(&[lift(NONE, (1, 1)), lift(NONE, (2, 1))]);
    count_replies(&sheet, &mut Vec::new(), 7, &mut counts);
    // Lines of lift 1 or 2, not ended, ended by LF and by CR LF, with the count's digits and zeros before the lift in so many bytes.
    let (mut zero, mut above_0) = (0, 0);
    for bytes in [5, 4, 3] {
        for digits in 1..=bytes {
            let lifts = 2 * (bytes - digits + 1);
            zero += lifts;
            above_0 += lifts * (3_u32.pow(digits) - 1);
        }
    }
    // No line; one line; lifts 1 and 2 with a digit each, in both orders.
    assert_eq!(counts[0], 1 + above_0 + 2 * 2 * 2);
    assert_eq!(counts[9], zero + 2 * (3 * 3 - 2 * 2));
}

#[test]
fn seeded_texts_agree() {
    let mut seeded = Seeded::new(15);
    let mut numbers = [0; 17];
    let mut with_faulty_text = [0; 17];
    let names = names_of_sorts().into_iter();
    let mut sorts: BTreeMap<&str, u32> = names.map(|name| (name, 0)).collect();
    for _ in 0..300_000 {
        let lent = any_lent(&mut seeded);
        let (reply, _) = agreed_sheet(&lent.sheet, &lent.text);
        let case = Case::new(lent, reply);
        numbers[number_of(reply)] += 1;
        if case.is_refused_unread() && case.has_faulty_text() {
            with_faulty_text[number_of(reply)] += 1;
        }
        for name in case.sorts() {
            *sorts.get_mut(name).expect("all names are there") += 1;
        }
    }
    assert!(numbers[0] >= 20_000, "{numbers:?}");
    let given = [&numbers[1..=10], &numbers[14..=16]].concat();
    assert!(given.iter().all(|&texts| texts >= 500), "{numbers:?}");
    let unread = [&with_faulty_text[1..=6], &with_faulty_text[16..]].concat();
    assert!(unread.iter().all(|&texts| texts >= 500), "{unread:?}");
    assert!(sorts.values().all(|&texts| texts >= 500), "{sorts:#?}");
}

#[test]
fn old_measures_in_place_of_counts_change_no_reply() {
    let mut seeded = Seeded::new(26);
    let (mut taken, mut refused) = (0, 0);
    while taken + refused < 50_000 {
        let Lent { sheet, text, .. } = any_lent(&mut seeded);
        let filled_sheet = filled_in(&sheet);
        if read_lifts(&sheet).is_err() || filled_sheet == sheet {
            continue;
        }
        let (reply, result) = agreed_sheet(&sheet, &text);
        let filled = (reply, filled_in(&result));
        assert_eq!(agreed_sheet(&filled_sheet, &text), filled);
        match reply {
            Intake::Taken { .. } => taken += 1,
            Intake::Refused { .. } => refused += 1,
        }
    }
    assert!(taken >= 5_000 && refused >= 5_000, "{taken} {refused}");
}

#[test]
fn full_sheets_agree() {
    let mut seeded = Seeded::new(16);
    let mut longest = 0;
    for _ in 0..60 {
        let lifts = fitting_lifts(&mut seeded, 4_096, 20_000);
        let sheet = write_sheet(&lifts);
        longest += usize::from(sheet.len() == 12_389);
        let mut counted = lifts.clone();
        seeded.shuffle(&mut counted);
        counted.truncate(3_870);
        for lift in &mut counted {
            lift.new_measure = lift.filled_measure().div_ceil(2);
        }
        let (reply, _) = agreed_sheet(&sheet, &text_of(&counted));
        assert_eq!(reply, taken(3_870));
        agreed_sheet(&sheet, &any_text(&mut seeded, &lifts));
    }
    assert!(longest >= 20, "{longest}");
}

#[test]
fn plain_version_agrees() {
    let mut seeded = Seeded::new(17);
    for _ in 0..50_000 {
        let Lent { sheet, text, .. } = any_lent(&mut seeded);
        let expected = run(reference::take_counts, &sheet, &text);
        let plain = run(plain::take_counts, &sheet, &text);
        assert!(plain == expected, "{}\n{sheet:08X?}", text.escape_ascii());
    }
}
