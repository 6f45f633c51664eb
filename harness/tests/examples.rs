//! The committed examples are what their generator yields, and the quarter's counts are taken into its sheet.

use harness::examples::{examples, COUNTS_FILE, SHEET_FILE, WORDS_FILE};
use harness::reference::{donors, read_sheet, write_sheet, Intake, Reply, SheetLift};
use harness::{archive, reference};
use std::fs;
use std::path::Path;

/// The content of a committed file.
fn committed(folder: &str, file: &str) -> Vec<u8> {
    let top = Path::new(env!("CARGO_MANIFEST_DIR")).join("..");
    let path = top.join(folder).join(file);
    fs::read(&path).unwrap_or_else(|error| panic!("{}: {error}", path.display()))
}

#[test]
fn examples_are_as_generated() {
    for example in examples() {
        let folder = example.folder;
        let sheet = committed(folder, SHEET_FILE);
        let words = committed(folder, WORDS_FILE);
        assert!(sheet == example.sheet, "{folder}/{SHEET_FILE}");
        assert!(words == example.words, "{folder}/{WORDS_FILE}");
        if let Some(generated) = example.counts {
            let counts = committed(folder, COUNTS_FILE);
            assert!(counts == generated, "{folder}/{COUNTS_FILE}");
        }
    }
}

/// The folder of the quarter.
const QUARTER: &str = "example/quarter";

/// What means "not counted" in a new place: all ones.
const NOT_COUNTED: u32 = 2_097_151;

/// The quarter's sheet.
fn quarter_sheet() -> Vec<u32> {
    let bytes = committed(QUARTER, SHEET_FILE);
    let (words, _unfinished) = bytes.as_chunks();
    words.iter().map(|word| u32::from_le_bytes(*word)).collect()
}

/// The quarter's random words.
fn quarter_words() -> Vec<u64> {
    let bytes = committed(QUARTER, WORDS_FILE);
    let (words, _unfinished) = bytes.as_chunks();
    words.iter().map(|word| u64::from_le_bytes(*word)).collect()
}

#[test]
fn quarter_is_of_the_size_told() {
    let sheet = read_sheet(&quarter_sheet()).expect("the sheet fits");
    let rounds = sheet.new_rounds.values();
    let of_two = rounds.filter(|lifts| donors(lifts).len() == 2).count();
    let sizes = (sheet.lifts.len(), sheet.new_rounds.len(), of_two);
    assert_eq!(sizes, (3_870, 84, 12));
}

/// The numbers of the lifts that the quarter's counts name, line by line.
fn numbers_counted() -> Vec<u32> {
    let text = committed(QUARTER, COUNTS_FILE);
    let text = String::from_utf8(text).expect("the text is ASCII");
    let lines = text.split_terminator("\r\n");
    let fields = lines.map(|line| line.split_once(',').expect("there is a comma"));
    let numbers = fields.map(|(number, _)| number.parse().expect("the number is one"));
    numbers.collect()
}

#[test]
fn quarter_counts_are_of_most_lifts() {
    let numbers = numbers_counted();
    assert!(numbers.is_sorted());
    let sheet = read_sheet(&quarter_sheet()).expect("the sheet fits");
    let mut unnamed = sheet.lifts;
    unnamed.retain(|lift| numbers.binary_search(&lift.number).is_err());
    let withdrawn = unnamed.iter().filter(|lift| lift.new_round == 0).count();
    let sizes = (numbers.len(), withdrawn, unnamed.len() - withdrawn);
    assert_eq!(sizes, (3_774, 54, 42));
}

/// The lifts of the quarter.
fn quarter_lifts() -> Vec<SheetLift> {
    let sheet = read_sheet(&quarter_sheet()).expect("the sheet fits");
    sheet.lifts
}

#[test]
fn quarter_has_three_lifts_not_counted() {
    let mut lifts = quarter_lifts();
    lifts.retain(|lift| lift.new_measure == NOT_COUNTED);
    let numbers = numbers_counted();
    for lift in &lifts {
        assert!(!numbers.contains(&lift.number), "{lift:?}");
    }
    let places = lifts.iter().map(|lift| {
        let old = (lift.old_round, lift.old_measure);
        (lift.number, old, lift.new_round, lift.held)
    });
    let expected = [
        (2_396, (57, 1_909), 58, false),
        (2_923, (48, 349), 48, false),
        (10_452, (22, 3_276), 22, true),
    ];
    assert!(places.eq(expected));
}

/// The reply for a sheet of the quarter's rounds, with the lift and the outcome of round 22; archive and reference agree.
fn choice_of_22(sheet: &[u32], words: &[u64]) -> (Reply, u32, u32) {
    let [proved, expected] = [archive::choose_panel, reference::choose_panel].map(|choose| {
        let mut out = [0; 2 * 84];
        (choose(sheet, words, 0, &mut out), out)
    });
    assert_eq!(proved, expected);
    let (reply, out) = expected;
    let mut pairs = out.as_chunks().0.iter();
    let pair = pairs.find(|[place, _]| place >> 21 == 5 << 7 | 22);
    let [place, lift] = pair.expect("round 22 is in use");
    (reply, lift - (6 << 28), place & 0x1F_FFFF)
}

/// The quarter's sheet as if all lifts had stayed in their rounds with their measures; those not counted have this in its place.
fn unchanged_but(not_counted: u32) -> Vec<u32> {
    let mut lifts = quarter_lifts();
    for lift in &mut lifts {
        lift.new_round = lift.old_round;
        lift.new_measure = match lift.new_measure {
            NOT_COUNTED => not_counted,
            _ => lift.old_measure,
        };
    }
    write_sheet(&lifts)
}

#[test]
fn a_dead_modem_costs_no_recorder() {
    let without_words = Reply::Chosen {
        choices: 84,
        words: 0,
    };
    let kept = choice_of_22(&unchanged_but(NOT_COUNTED), &[]);
    assert_eq!(kept, (without_words, 10_452, 1));
    let (_, lift, outcome) = choice_of_22(&unchanged_but(0), &quarter_words());
    assert!(lift != 10_452 && outcome == 2, "{lift} {outcome}");
}

#[test]
fn quarter_counts_are_taken() {
    let (lent, text) = (quarter_sheet(), committed(QUARTER, COUNTS_FILE));
    let (mut proved, mut expected) = (lent.clone(), lent.clone());
    let reply = archive::take_counts(&mut proved, &text);
    assert_eq!(reply, Intake::Taken { lines: 3_774 });
    assert_eq!(reply, reference::take_counts(&mut expected, &text));
    assert!(proved == expected && proved != lent);
    let silent = |word: &&u32| **word >> 28 == 3 && **word & NOT_COUNTED == NOT_COUNTED;
    assert_eq!(proved.iter().filter(silent).count(), 3);
    let (reply, lift, outcome) = choice_of_22(&proved, &quarter_words());
    assert!(
        matches!(reply, Reply::Chosen { choices: 84, .. }),
        "{reply:?}"
    );
    assert_eq!((lift, outcome), (10_452, 1));
}
