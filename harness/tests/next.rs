//! Compares the archive's choice that writes next quarter's sheet with the reference: cases by hand, seeded sheets, and twelve quarters
//! in a row.

use harness::lent::{any_count, any_len, any_start, chosen, number_of, refused, Marked, Script};
use harness::reference::{donors, new_sum, old_sum, read_lifts, read_sheet, write_sheet};
use harness::reference::{Intake, Reply, SheetLift, Verdict};
use harness::seeded::Seeded;
use harness::sheets::{add_sheet_words, damaged_sheet, filled_in, measure_rounds, rearrange};
use harness::sheets::{any_lifts, fitting_lifts, lifelike_lifts, longest, Town, EXAMPLE};
use harness::sheets::{names_of_sheet_sorts, Checked};
use harness::texts::{lifelike_text, text_of};
use harness::{archive, reference};
use std::collections::{BTreeMap, BTreeSet};

/// What is lent for a choice: lengths stand for the output and for the sheet to be written.
#[derive(Clone, Copy, Debug)]
struct Lent<'a> {
    sheet: &'a [u32],
    words: &'a [u64],
    start: usize,
    out_len: usize,
    next_len: usize,
}

/// A choice that writes next quarter's sheet.
type Chooser = fn(&[u32], &[u64], usize, &mut [u32], &mut [u32]) -> Reply;

/// What means "not counted" in a new place: all ones.
const NOT_COUNTED: u32 = 2_097_151;

/// The reply, and the words written to the output and to the next sheet.
#[derive(Debug, PartialEq, Eq)]
struct Answer {
    reply: Reply,
    pairs: Vec<u32>,
    next: Vec<u32>,
}

/// The reply, and output and next sheet between marks.
fn run(choose: Chooser, lent: Lent) -> (Reply, Marked, Marked) {
    let mut out = Marked::new(lent.out_len);
    let mut next = Marked::new(lent.next_len);
    let (sheet, words) = (lent.sheet, lent.words);
    let reply = choose(sheet, words, lent.start, out.lent(), next.lent());
    (reply, out, next)
}

/// How many words the output needs, and the next sheet.
fn needs(lifts: &[SheetLift]) -> (usize, usize) {
    let rounds = lifts.iter().map(|lift| lift.new_round);
    let rounds: Vec<u32> = rounds.filter(|&round| round > 0).collect();
    let in_use = rounds.iter().collect::<BTreeSet<_>>().len();
    (2 * in_use, 3 * rounds.len() + in_use + 1)
}

/// An answer on which archive and reference agree; nothing but the pairs and the next sheet is written.
fn agreed(lent: Lent) -> Answer {
    let expected = run(reference::choose_next, lent);
    let proved = run(archive::choose_next, lent);
    assert!(
        proved == expected,
        "{lent:08X?}\n{proved:08X?}\n{expected:08X?}"
    );
    let (reply, out, next) = proved;
    let (pairs, words) = match reply {
        Reply::Chosen { .. } => needs(&read_lifts(lent.sheet).expect("the sheet fits")),
        Reply::Refused { .. } => (0, 0),
    };
    Answer {
        reply,
        pairs: out.written(pairs),
        next: next.written(words),
    }
}

/// A sheet's words, in a row for each lift and one for the end.
type Rows = &'static [&'static [u32]];

/// A case by hand: the sheet, words that just suffice, and what is written.
struct Case {
    name: &'static str,
    sheet: Rows,
    words: &'static [u64],
    pairs: &'static [[u32; 2]],
    next: Rows,
}

/// New 4, 1, 5 in the document's example: lift 12 is dropped, and lift 11 is chosen.
const REPLACED: Case = Case {
    name: "replaced",
    sheet: &[&EXAMPLE],
    words: &[10, 0],
    pairs: &[[0x5020_0002, 0x6000_000B]],
    next: &[
        &[0x1000_000B, 0x2020_0004, 0x303F_FFFF, 0x4000_0000],
        &[0x1000_000C, 0x2020_0001, 0x303F_FFFF],
        &[0x1000_000D, 0x2020_0005, 0x303F_FFFF],
        &[0xF000_0003],
    ],
};

/// Old 2, 3, 5, new 4, 3, 5, where lift 12 is held and was not counted: old weight 36, new 30.
const SILENT: Case = Case {
    name: "silent",
    sheet: &[
        &[0x1000_000B, 0x2020_0002, 0x3020_0004],
        &[0x1000_000C, 0x2020_0003, 0x303F_FFFF, 0x4000_0000],
        &[0x1000_000D, 0x2020_0005, 0x3020_0005],
        &[0xF000_0003],
    ],
    words: &[29],
    pairs: &[[0x5020_0001, 0x6000_000C]],
    next: &[
        &[0x1000_000B, 0x2020_0004, 0x303F_FFFF],
        &[0x1000_000C, 0x2020_0003, 0x303F_FFFF, 0x4000_0000],
        &[0x1000_000D, 0x2020_0005, 0x303F_FFFF],
        &[0xF000_0003],
    ],
};

/// Lift 2, which is held, and lift 12 are withdrawn; new round 7 has 4, 5 (not counted) and 1, of which f 8 takes the second.
const WITHDRAWN: Case = Case {
    name: "withdrawn",
    sheet: &[
        &[0x1000_0001, 0x2020_0002, 0x30E0_0004],
        &[0x1000_0002, 0x2020_0003, 0x3000_0000, 0x4000_0000],
        &[0x1000_0005, 0x2020_0005, 0x30FF_FFFF],
        &[0x1000_0009, 0x2000_0000, 0x30E0_0001],
        &[0x1000_000C, 0x2000_0000, 0x3000_0000],
        &[0xF000_0005],
    ],
    words: &[8],
    pairs: &[[0x50E0_0003, 0x6000_0005]],
    next: &[
        &[0x1000_0001, 0x20E0_0004, 0x30FF_FFFF],
        &[0x1000_0005, 0x20E0_0005, 0x30FF_FFFF, 0x4000_0000],
        &[0x1000_0009, 0x20E0_0001, 0x30FF_FFFF],
        &[0xF000_0003],
    ],
};

/// All lifts are withdrawn.
const ALL_WITHDRAWN: Case = Case {
    name: "all withdrawn",
    sheet: &[
        &[0x1000_0003, 0x2C80_0001, 0x3000_0000, 0x4000_0000],
        &[0x1000_0004, 0x2C80_0009, 0x3000_0000],
        &[0x1000_0005, 0x2000_0000, 0x3000_0000],
        &[0xF000_0003],
    ],
    words: &[],
    pairs: &[],
    next: &[&[0xF000_0000]],
};

/// There is no lift.
const NO_LIFT: Case = Case {
    name: "no lift",
    sheet: &[&[0xF000_0000]],
    words: &[],
    pairs: &[],
    next: &[&[0xF000_0000]],
};

/// Old rounds 1 and 2 of sums 4 and 6 both send to both new rounds. In 1, v 12, r 18 and q 5 are M8; in 2, f 2 falls to lift 23, which
/// has 3 of 9.
const TWO_DONORS: Case = Case {
    name: "two donors",
    sheet: &[
        &[0x1000_0015, 0x2020_0001, 0x3020_0001, 0x4000_0000],
        &[0x1000_0016, 0x2040_0003, 0x3020_0001, 0x4000_0000],
        &[0x1000_0017, 0x2020_0003, 0x305F_FFFF],
        &[0x1000_0018, 0x2040_0003, 0x3040_0006],
        &[0xF000_0004],
    ],
    words: &[12, 18, 5, 2],
    pairs: &[[0x5020_0001, 0x6000_0015], [0x5040_0003, 0x6000_0017]],
    next: &[
        &[0x1000_0015, 0x2020_0001, 0x303F_FFFF, 0x4000_0000],
        &[0x1000_0016, 0x2020_0001, 0x303F_FFFF],
        &[0x1000_0017, 0x2040_0003, 0x305F_FFFF, 0x4000_0000],
        &[0x1000_0018, 0x2040_0006, 0x305F_FFFF],
        &[0xF000_0004],
    ],
};

/// Old 5, 0, 2, new 0, 0 (not counted), 3: lift 1 is always dropped, by any r below 15 and q below 15.
const MEASURE_0: Case = Case {
    name: "measure 0",
    sheet: &[
        &[0x1000_0001, 0x2020_0005, 0x3020_0000, 0x4000_0000],
        &[0x1000_0002, 0x2020_0000, 0x303F_FFFF],
        &[0x1000_0003, 0x2020_0002, 0x3020_0003],
        &[0xF000_0003],
    ],
    words: &[14, 14],
    pairs: &[[0x5020_0002, 0x6000_0003]],
    next: &[
        &[0x1000_0001, 0x2020_0000, 0x303F_FFFF],
        &[0x1000_0002, 0x2020_0000, 0x303F_FFFF],
        &[0x1000_0003, 0x2020_0003, 0x303F_FFFF, 0x4000_0000],
        &[0xF000_0003],
    ],
};

/// The highest lift number, round and measure; the sheet stays as it is.
const HIGHEST: Case = Case {
    name: "highest",
    sheet: &[
        &[0x1FFF_FFFF, 0x2C90_0000, 0x3C9F_FFFF, 0x4000_0000],
        &[0xF000_0001],
    ],
    words: &[],
    pairs: &[[0x5C80_0001, 0x6FFF_FFFF]],
    next: &[
        &[0x1FFF_FFFF, 0x2C90_0000, 0x3C9F_FFFF, 0x4000_0000],
        &[0xF000_0001],
    ],
};

/// All cases by hand.
const CASES: [Case; 8] = [
    REPLACED,
    SILENT,
    WITHDRAWN,
    ALL_WITHDRAWN,
    NO_LIFT,
    TWO_DONORS,
    MEASURE_0,
    HIGHEST,
];

/// Checks that a case is answered as it says, also where more is lent.
fn check(case: &Case) {
    let (name, words) = (case.name, case.words);
    let sheet = case.sheet.concat();
    let expected = Answer {
        reply: chosen(case.pairs.len(), words.len()),
        pairs: case.pairs.concat(),
        next: case.next.concat(),
    };
    let lent = Lent {
        sheet: &sheet,
        words,
        start: 0,
        out_len: expected.pairs.len(),
        next_len: expected.next.len(),
    };
    assert_eq!(agreed(lent), expected, "{name}");
    let more = [&[7, u64::MAX], words, &[0, 1]].concat();
    let more = Lent {
        words: &more,
        start: 2,
        out_len: lent.out_len + 3,
        next_len: lent.next_len + 5,
        ..lent
    };
    assert_eq!(agreed(more), expected, "{name}");
    check_less(name, lent);
}

/// Checks that all that is less than what is lent, which just suffices from 0 on, is refused.
fn check_less(name: &str, lent: Lent) {
    for next_len in 0..lent.next_len {
        let reply = agreed(Lent { next_len, ..lent }).reply;
        assert_eq!(reply, refused(17, lent.next_len), "{name}");
    }
    for out_len in 0..lent.out_len {
        let reply = agreed(Lent { out_len, ..lent }).reply;
        assert_eq!(reply, refused(12, lent.out_len), "{name}");
    }
    for end in 0..lent.words.len() {
        let words = &lent.words[..end];
        let reply = agreed(Lent { words, ..lent }).reply;
        assert_eq!(number_of(reply), 13, "{name}");
    }
    let start = lent.words.len() + 1;
    let reply = agreed(Lent { start, ..lent }).reply;
    assert_eq!(reply, refused(11, start), "{name}");
}

#[test]
fn cases_by_hand() {
    CASES.iter().for_each(check);
}

/// The agreed reply where the output just suffices and the next sheet has so many words.
fn reply_with(sheet: &[u32], words: &[u64], next_len: usize) -> Reply {
    let lifts = read_lifts(sheet).expect("the sheet fits");
    let (out_len, _) = needs(&lifts);
    let lent = Lent {
        sheet,
        words,
        start: 0,
        out_len,
        next_len,
    };
    agreed(lent).reply
}

#[test]
fn a_sheet_with_too_few_words_is_refused() {
    for next_len in [11, 12, 12_389, 12_390] {
        assert_eq!(reply_with(&EXAMPLE, &[10, 0], next_len), chosen(1, 2));
    }
    for next_len in [10, 9, 1, 0] {
        assert_eq!(reply_with(&EXAMPLE, &[10, 0], next_len), refused(17, 11));
    }
    let withdrawn = WITHDRAWN.sheet.concat();
    assert_eq!(reply_with(&withdrawn, &[8], 11), chosen(1, 1));
    assert_eq!(reply_with(&withdrawn, &[8], 10), refused(17, 11));
    let two_donors = TWO_DONORS.sheet.concat();
    let words = TWO_DONORS.words;
    assert_eq!(reply_with(&two_donors, words, 15), chosen(2, 4));
    assert_eq!(reply_with(&two_donors, words, 14), refused(17, 15));
    for case in [ALL_WITHDRAWN, NO_LIFT] {
        assert_eq!(reply_with(&case.sheet.concat(), &[], 1), chosen(0, 0));
        assert_eq!(reply_with(&case.sheet.concat(), &[], 0), refused(17, 1));
    }
}

#[test]
fn refusals_come_in_order() {
    let mut lent = Lent {
        sheet: &[],
        words: &[10],
        start: 2,
        out_len: 1,
        next_len: 10,
    };
    assert_eq!(agreed(lent).reply, refused(1, 0));
    lent.sheet = &EXAMPLE[1..];
    assert_eq!(agreed(lent).reply, refused(2, 0));
    let newcomer = [0x1000_0001, 0x2000_0000, 0x303F_FFFF, 0xF000_0001];
    lent.sheet = &newcomer;
    assert_eq!(agreed(lent).reply, refused(16, 2));
    let not_held = [0x1000_0001, 0x2020_0001, 0x303F_FFFF, 0xF000_0001];
    lent.sheet = &not_held;
    assert_eq!(agreed(lent).reply, refused(7, 1));
    lent.sheet = &EXAMPLE;
    assert_eq!(agreed(lent).reply, refused(11, 2));
    lent.start = 1;
    assert_eq!(agreed(lent).reply, refused(12, 2));
    lent.out_len = 2;
    assert_eq!(agreed(lent).reply, refused(17, 11));
    lent.next_len = 11;
    assert_eq!(agreed(lent).reply, refused(13, 1));
    lent.start = 0;
    assert_eq!(agreed(lent).reply, refused(13, 1));
    lent.words = &[10, 0];
    assert_eq!(agreed(lent).reply, chosen(1, 2));
}

#[test]
fn longest_sheet_is_written() {
    let mut seeded = Seeded::new(30);
    let script = Script::longest(&mut seeded);
    let lent = Lent {
        sheet: &script.sheet,
        words: &script.words,
        start: script.start,
        out_len: 200,
        next_len: 12_389,
    };
    let read = script.words.len() - script.start;
    assert_eq!(agreed(lent).reply, chosen(100, read));
    let next_len = 12_388;
    let reply = agreed(Lent { next_len, ..lent }).reply;
    assert_eq!(reply, refused(17, 12_389));
    for count in script.start..script.words.len() {
        let words = &script.words[..count];
        let round = script.round_of_word[count];
        let reply = agreed(Lent { words, ..lent }).reply;
        assert_eq!(reply, refused(13, round as usize));
        let short = Lent {
            words,
            next_len,
            ..lent
        };
        assert_eq!(agreed(short).reply, refused(17, 12_389));
    }
}

/// A town of few lifts.
const SMALL_TOWN: Town = Town {
    lifts: 60,
    rounds: 10,
    redrawn: 4,
};

/// A town of the most lifts and rounds.
const LARGE_TOWN: Town = Town {
    lifts: 4_096,
    rounds: 100,
    redrawn: 20,
};

/// Lifts of a sheet that fits: lifelike, by hand, all withdrawn, or mostly any.
fn any_sort(seeded: &mut Seeded) -> Vec<SheetLift> {
    match seeded.below(64) {
        0 => lifelike_lifts(seeded, SMALL_TOWN),
        1 => by_hand(seeded),
        2..5 => all_withdrawn(seeded),
        _ => any_lifts(seeded),
    }
}

/// The lifts of a case by hand.
fn by_hand(seeded: &mut Seeded) -> Vec<SheetLift> {
    let case = &CASES[seeded.index(CASES.len())];
    read_lifts(&case.sheet.concat()).expect("the sheet fits")
}

/// Any lifts, all of them withdrawn.
fn all_withdrawn(seeded: &mut Seeded) -> Vec<SheetLift> {
    let mut lifts = any_lifts(seeded);
    for lift in &mut lifts {
        (lift.new_round, lift.new_measure) = (0, 0);
    }
    lifts
}

/// How a length lies to what is needed.
#[derive(Clone, Copy, Debug, PartialEq, Eq, PartialOrd, Ord)]
enum Side {
    Empty,
    OneShort,
    Shorter,
    Just,
    More,
}

/// The side of a length.
fn side_of(len: usize, needed: usize) -> Side {
    match len {
        _ if len > needed => Side::More,
        _ if len == needed => Side::Just,
        0 => Side::Empty,
        _ if len + 1 == needed => Side::OneShort,
        _ => Side::Shorter,
    }
}

/// A sort's name, and whether lifts are of it.
type Sort = (&'static str, fn(&[SheetLift]) -> bool);

/// Sorts of sheets that are to be chosen from, beside those with a lift that was not counted.
const SORTS: [Sort; 7] = [
    ("no lift", |lifts| lifts.is_empty()),
    ("all withdrawn", |lifts| {
        !lifts.is_empty() && lifts.iter().all(is_withdrawn)
    }),
    ("some withdrawn", |lifts| {
        lifts.iter().any(is_withdrawn) && !lifts.iter().all(is_withdrawn)
    }),
    ("held lift withdrawn", |lifts| {
        lifts.iter().any(|lift| lift.held && is_withdrawn(lift))
    }),
    ("newcomer", |lifts| {
        let mut newcomers = lifts.iter().filter(|lift| lift.old_round == 0);
        newcomers.any(|lift| !is_withdrawn(lift))
    }),
    ("two donors", |lifts| {
        (1..=100).any(|round| {
            let lifts = lifts.iter().filter(|lift| lift.new_round == round);
            donors(&lifts.copied().collect::<Vec<_>>()).len() == 2
        })
    }),
    ("100 lifts or more", |lifts| lifts.len() >= 100),
];

/// The names of the sorts that lifts of a sheet that fits are of.
fn sorts_of(lifts: &[SheetLift]) -> Vec<&'static str> {
    let verdict = reference::check(&write_sheet(lifts));
    let checked = Checked::new(lifts.to_vec(), verdict);
    let sorts = SORTS.iter().filter(|(_, has)| has(lifts));
    let names = sorts.map(|(name, _)| *name);
    names.chain(checked.sorts()).collect()
}

/// The names of all sorts of sheets that fit.
fn names_of_sorts() -> impl Iterator<Item = &'static str> {
    let silent = names_of_sheet_sorts().into_iter();
    let silent = silent.filter(|name| name.starts_with("fits"));
    SORTS.iter().map(|(name, _)| *name).chain(silent)
}

/// Whether a lift is withdrawn.
fn is_withdrawn(lift: &SheetLift) -> bool {
    lift.new_round == 0
}

/// How often a number was given with a list's length on a side.
type Sides = BTreeMap<(usize, Side), usize>;

/// How often each number was given, where the lengths then lay, and how many sheets of each sort were chosen from.
#[derive(Default, Debug)]
struct Seen {
    numbers: [usize; 18],
    /// Up to the start.
    words: Sides,
    out: Sides,
    next: Sides,
    sorts: BTreeMap<&'static str, usize>,
}

impl Seen {
    /// Adds a case: what was lent for these lifts, and the number given.
    fn add(&mut self, lent: Lent, lifts: &[SheetLift], number: usize) {
        let (out_needed, next_needed) = needs(lifts);
        let words = side_of(lent.words.len(), lent.start);
        let out = side_of(lent.out_len, out_needed);
        let next = side_of(lent.next_len, next_needed);
        self.numbers[number] += 1;
        *self.words.entry((number, words)).or_default() += 1;
        *self.out.entry((number, out)).or_default() += 1;
        *self.next.entry((number, next)).or_default() += 1;
        if number == 0 {
            for name in sorts_of(lifts) {
                *self.sorts.entry(name).or_default() += 1;
            }
        }
    }

    /// Checks that each number was given on both sides of each bound, and each sort chosen from, 500 times or more.
    fn check(&self) {
        // There is no text, so 14 and 15 are never given.
        let [given @ .., 0, 0, newcomers, short_sheets] = &self.numbers else {
            panic!("{self:?}");
        };
        let given = given.iter().chain([newcomers, short_sheets]);
        assert!(given.min() >= Some(&500), "{self:?}");
        for name in names_of_sorts() {
            let sheets = self.sorts.get(name);
            assert!(sheets >= Some(&500), "{name}: {sheets:?}");
        }
        check_sides(&self.words, 11, &[12, 17, 13, 0]);
        check_sides(&self.out, 12, &[17, 13, 0]);
        check_sides(&self.next, 17, &[13, 0]);
    }
}

/// Checks that a list was empty, one word short and shorter by more where it was refused, and just long enough and longer where a later
/// number was given, 500 times or more.
fn check_sides(sides: &Sides, refusal: usize, later: &[usize]) {
    let short = [Side::Empty, Side::OneShort, Side::Shorter];
    let short = short.map(|side| (refusal, side));
    let enough = |&number: &usize| [(number, Side::Just), (number, Side::More)];
    for key in short.into_iter().chain(later.iter().flat_map(enough)) {
        let cases = sides.get(&key);
        assert!(cases >= Some(&500), "{key:?}: {cases:?}");
    }
}

#[test]
fn seeded_sheets_agree() {
    let mut seeded = Seeded::new(31);
    let mut seen = Seen::default();
    for _ in 0..150_000 {
        let lifts = any_sort(&mut seeded);
        let script = Script::new(&mut seeded, lifts);
        let sheet = match seeded.below(2) {
            0 => damaged_sheet(&mut seeded, script.lifts.clone(), 3),
            _ => script.sheet,
        };
        let lifts = read_lifts(&sheet).unwrap_or(script.lifts);
        let (out_needed, next_needed) = needs(&lifts);
        let count = any_count(&mut seeded, script.words.len());
        let lent = Lent {
            sheet: &sheet,
            words: &script.words[..count],
            start: any_start(&mut seeded, script.start, count),
            out_len: any_len(&mut seeded, out_needed),
            next_len: any_len(&mut seeded, next_needed),
        };
        seen.add(lent, &lifts, number_of(agreed(lent).reply));
    }
    seen.check();
}

/// A length that is too short where it is to be so and can be: one less, none or any less; else just enough or more.
fn len_for(seeded: &mut Seeded, short: bool, needed: usize) -> usize {
    match seeded.below(3) {
        _ if needed == 0 || !short => needed + seeded.index(2),
        0 => 0,
        1 => seeded.index(needed),
        _ => needed - 1,
    }
}

/// What is lent for a script and whichever refusals are to meet, and these refusals in order.
fn meeting<'a>(seeded: &mut Seeded, script: &'a Script) -> (Lent<'a>, Vec<(u32, usize)>) {
    let [late, short_out, short_next, few] = [(); 4].map(|()| seeded.below(2) == 0);
    let (out_needed, next_needed) = needs(&script.lifts);
    let read = script.words.len() - script.start;
    let missing = match few && read > 0 {
        true => 1 + seeded.index(read),
        false => 0,
    };
    let count = script.words.len() - missing;
    let lent = Lent {
        sheet: &script.sheet,
        words: &script.words[..count],
        start: match late {
            true => count + 1 + seeded.index(2),
            false => script.start,
        },
        out_len: len_for(seeded, short_out, out_needed),
        next_len: len_for(seeded, short_next, next_needed),
    };
    let round = script.round_of_word.get(count);
    let refusals = [
        late.then_some((11, lent.start)),
        (lent.out_len < out_needed).then_some((12, out_needed)),
        (lent.next_len < next_needed).then_some((17, next_needed)),
        round.filter(|_| !late).map(|&round| (13, round as usize)),
    ];
    (lent, refusals.into_iter().flatten().collect())
}

#[test]
fn refusals_meet_in_order() {
    let mut seeded = Seeded::new(32);
    let mut met: BTreeMap<Vec<u32>, usize> = BTreeMap::new();
    let mut one_word_short = 0;
    for _ in 0..60_000 {
        let lifts = any_sort(&mut seeded);
        let script = Script::new(&mut seeded, lifts);
        let (lent, refusals) = meeting(&mut seeded, &script);
        let read = script.words.len() - script.start;
        let expected = match refusals.first() {
            Some(&(number, place)) => refused(number, place),
            None => chosen(script.rounds, read),
        };
        assert_eq!(agreed(lent).reply, expected, "{lent:08X?}");
        let numbers: Vec<u32> = refusals.iter().map(|(number, _)| *number).collect();
        let one_short = lent.words.len() + 1 == script.words.len();
        one_word_short += usize::from(numbers == [13] && one_short);
        *met.entry(numbers).or_default() += 1;
    }
    // Each of 12, 17 and 13 with or without the others; behind 11, which leaves no draw to fall short, 12 and 17 alone.
    assert_eq!(met.len(), 8 + 4, "{met:?}");
    assert!(met.values().all(|&cases| cases >= 500), "{met:?}");
    assert!(one_word_short >= 500, "{one_word_short}");
}

/// What is lent for a script's choice: all of it just suffices.
fn lent_of(script: &Script) -> Lent<'_> {
    let (out_len, next_len) = needs(&script.lifts);
    Lent {
        sheet: &script.sheet,
        words: &script.words,
        start: script.start,
        out_len,
        next_len,
    }
}

/// A round, its chosen lift and the outcome.
type Choice = (u32, u32, u32);

/// The choices that an output's pairs tell.
fn choices_of(pairs: &[u32]) -> Vec<Choice> {
    let pairs = pairs.as_chunks().0.iter();
    let choices =
        pairs.map(|[place, lift]| (place << 4 >> 25, lift - (6 << 28), place << 11 >> 11));
    choices.collect()
}

/// Checks that the sheet written for a sheet that fits does so too, and is read as its lifts but for withdrawn ones: each in its new
/// round with the measure that counted, not counted, and held if it was chosen.
fn check_read_back(sheet: &[u32], answer: &Answer) {
    let choices = choices_of(&answer.pairs).into_iter();
    let chosen: BTreeSet<_> = choices.map(|(round, lift, _)| (round, lift)).collect();
    let mut expected = read_lifts(&filled_in(sheet)).expect("the sheet fits");
    expected.retain(|lift| !is_withdrawn(lift));
    for lift in &mut expected {
        (lift.old_round, lift.old_measure) = (lift.new_round, lift.new_measure);
        lift.new_measure = NOT_COUNTED;
        lift.held = chosen.contains(&(lift.new_round, lift.number));
    }
    let fits = Verdict::Fits {
        lifts: expected.len(),
        rounds: chosen.len(),
    };
    assert_eq!(archive::check_sheet(&answer.next), fits);
    let next = read_sheet(&answer.next).expect("the sheet written fits");
    assert_eq!(next.lifts, expected);
}

/// Checks that a sheet written, run at once on any words, keeps every recorder, reads no word and is written again as it is.
fn check_at_once(answer: &Answer, words: &[u64], start: usize) {
    let lent = Lent {
        sheet: &answer.next,
        words,
        start,
        out_len: answer.pairs.len(),
        next_len: answer.next.len(),
    };
    let kept = |(round, lift, _): Choice| [5 << 28 | round << 21 | 1, 6 << 28 | lift];
    let expected = Answer {
        reply: chosen(answer.pairs.len() / 2, 0),
        pairs: choices_of(&answer.pairs)
            .into_iter()
            .flat_map(kept)
            .collect(),
        next: answer.next.clone(),
    };
    assert_eq!(agreed(lent), expected);
    for choose in [archive::choose_panel, reference::choose_panel] {
        let mut out = vec![0; lent.out_len];
        assert_eq!(choose(lent.sheet, words, start, &mut out), expected.reply);
        assert_eq!(out, expected.pairs);
    }
}

/// Checks a script's answer, and what the sheet written is read as and yields at once, and counts the outcomes.
fn check_written(seeded: &mut Seeded, script: &Script, outcomes: &mut [usize; 4]) {
    let answer = agreed(lent_of(script));
    let read = script.words.len() - script.start;
    assert_eq!(answer.reply, chosen(script.rounds, read));
    for (_, _, outcome) in choices_of(&answer.pairs) {
        outcomes[outcome as usize] += 1;
    }
    check_read_back(&script.sheet, &answer);
    check_at_once(&answer, &[], 0);
    let words: Vec<u64> = (0..seeded.index(5)).map(|_| seeded.word()).collect();
    check_at_once(&answer, &words, seeded.index(words.len() + 1));
}

#[test]
fn sheets_written_keep_every_recorder() {
    let mut seeded = Seeded::new(33);
    let mut outcomes = [0; 4];
    for _ in 0..50_000 {
        let lifts = any_sort(&mut seeded);
        let script = Script::new(&mut seeded, lifts);
        check_written(&mut seeded, &script, &mut outcomes);
    }
    let often = outcomes[1..].iter().all(|&pairs| pairs >= 2_000);
    assert!(often, "{outcomes:?}");
}

#[test]
fn full_sheets_written_keep_every_recorder() {
    let mut seeded = Seeded::new(34);
    let mut outcomes = [0; 4];
    for _ in 0..60 {
        let count = 4_096 - seeded.index(20);
        let lifts = fitting_lifts(&mut seeded, count, 1_500);
        let script = Script::new(&mut seeded, lifts);
        check_written(&mut seeded, &script, &mut outcomes);
        let lifts = lifelike_lifts(&mut seeded, LARGE_TOWN);
        let script = Script::new(&mut seeded, lifts);
        check_written(&mut seeded, &script, &mut outcomes);
    }
    let often = outcomes[1..].iter().all(|&pairs| pairs >= 2_000);
    assert!(often, "{outcomes:?}");
}

/// How many quarters follow one another.
const QUARTERS: usize = 12;

/// The answer for a quarter's sheet, from words read from `start` on, with its rounds and sums carried over.
fn choose_quarter(sheet: &[u32], words: &[u64], start: usize) -> Answer {
    let read = read_sheet(sheet).expect("the sheet fits");
    let (out_len, next_len) = needs(&read.lifts);
    let lent = Lent {
        sheet,
        words,
        start,
        out_len,
        next_len,
    };
    let answer = agreed(lent);
    check_read_back(sheet, &answer);
    let next = read_sheet(&answer.next).expect("the sheet written fits");
    let old_sums = next.old_rounds.iter();
    let old_sums = old_sums.map(|(round, lifts)| (round, old_sum(lifts)));
    let new_sums = read.new_rounds.iter();
    let new_sums = new_sums.map(|(round, lifts)| (round, new_sum(lifts)));
    assert!(old_sums.eq(new_sums));
    answer
}

/// The sheet with a text's counts taken; archive and reference agree on it, and that all its lines are taken.
fn counted_sheet(sheet: &[u32], text: &[u8], lines: usize) -> Vec<u32> {
    let [proved, expected] = [archive::take_counts, reference::take_counts].map(|take| {
        let mut sheet = sheet.to_vec();
        (take(&mut sheet, text), sheet)
    });
    assert!(proved == expected);
    assert_eq!(expected.0, Intake::Taken { lines });
    expected.1
}

/// The sheet of the example quarter.
fn example_sheet() -> Vec<u32> {
    let bytes = include_bytes!("../../example/quarter/sheet.bin");
    let words = bytes.as_chunks().0.iter();
    words.map(|word| u32::from_le_bytes(*word)).collect()
}

/// The random words of the example quarter.
fn example_words() -> Vec<u64> {
    let bytes = include_bytes!("../../example/quarter/words.bin");
    let words = bytes.as_chunks().0.iter();
    words.map(|word| u64::from_le_bytes(*word)).collect()
}

#[test]
fn twelve_quarters_of_the_example() {
    let (mut sheet, words) = (example_sheet(), example_words());
    let mut seeded = Seeded::new(35);
    let mut start = 0;
    for quarter in 0..QUARTERS {
        let answer = choose_quarter(&sheet, &words, start);
        let Reply::Chosen { choices: 84, words } = answer.reply else {
            panic!("{:?}", answer.reply);
        };
        start += words;
        // Once the rounds stay the same, each has its held lift.
        let outcomes = choices_of(&answer.pairs).into_iter();
        let mut outcomes = outcomes.map(|(_, _, outcome)| outcome);
        assert!(quarter == 0 || outcomes.all(|outcome| outcome < 3));
        let lifts = read_lifts(&answer.next).expect("the sheet written fits");
        // Of 3,870 lifts 54 were withdrawn in the first quarter; about one in a hundred has no line.
        assert_eq!(lifts.len(), 3_816);
        let text = lifelike_text(&mut seeded, &lifts);
        let lines = text.split_inclusive(|&byte| byte == b'\n').count();
        assert!((3_750..3_816).contains(&lines), "{lines}");
        sheet = counted_sheet(&answer.next, &text, lines);
    }
}

/// The next quarter's sheet: half of the time the office has changed what was written, and then most lifts are counted.
fn next_quarter(seeded: &mut Seeded, written: &[u32]) -> Vec<u32> {
    let mut lifts = read_lifts(written).expect("the sheet written fits");
    if seeded.below(2) == 0 {
        rearrange(seeded, &mut lifts);
    }
    let changed = write_sheet(&lifts);
    measure_rounds(seeded, &mut lifts);
    let mut counted = lifts.clone();
    counted.retain(|lift| !is_withdrawn(lift) && !lift.is_silent());
    seeded.shuffle(&mut counted);
    let sheet = counted_sheet(&changed, &text_of(&counted), counted.len());
    assert_eq!(sheet, write_sheet(&lifts));
    sheet
}

/// How many pairs had each outcome, and how many lifts were counted and not counted, in quarters in a row.
#[derive(Default, Debug)]
struct Course {
    outcomes: [usize; 4],
    counted: usize,
    silent: usize,
}

impl Course {
    /// Chooses for twelve quarters from these lifts on, reading on in one list of words.
    fn run(&mut self, seeded: &mut Seeded, lifts: &[SheetLift]) {
        let mut sheet = write_sheet(lifts);
        let mut words = Vec::new();
        for _ in 0..QUARTERS {
            let start = words.len();
            let read = read_sheet(&sheet).expect("the sheet fits");
            add_sheet_words(seeded, &read, &mut words);
            let answer = choose_quarter(&sheet, &words, start);
            let reply = chosen(read.new_rounds.len(), words.len() - start);
            assert_eq!(answer.reply, reply);
            self.add(&read.lifts, &answer);
            sheet = next_quarter(seeded, &answer.next);
        }
    }

    /// Adds a quarter's lifts and choices.
    fn add(&mut self, lifts: &[SheetLift], answer: &Answer) {
        for (_, _, outcome) in choices_of(&answer.pairs) {
            self.outcomes[outcome as usize] += 1;
        }
        let silent = lifts.iter().filter(|lift| lift.is_silent()).count();
        let withdrawn = lifts.iter().filter(|lift| is_withdrawn(lift)).count();
        self.silent += silent;
        self.counted += lifts.len() - withdrawn - silent;
    }

    /// Checks that each outcome was met so many times, and that most lifts were counted but a tenth or more were not.
    fn check(&self, pairs: usize) {
        let often = self.outcomes[1..].iter().all(|&met| met >= pairs);
        assert!(often, "{self:?}");
        let some_silent = self.counted / 10..self.counted;
        assert!(some_silent.contains(&self.silent), "{self:?}");
    }
}

#[test]
fn twelve_quarters_of_seeded_sheets() {
    let mut seeded = Seeded::new(36);
    let mut course = Course::default();
    for _ in 0..2_000 {
        let lifts = any_sort(&mut seeded);
        course.run(&mut seeded, &lifts);
    }
    course.check(5_000);
}

#[test]
fn twelve_quarters_of_full_sheets() {
    let mut seeded = Seeded::new(37);
    let mut course = Course::default();
    course.run(&mut seeded, &longest());
    for _ in 0..5 {
        let lifts = fitting_lifts(&mut seeded, 4_096, 1_500);
        course.run(&mut seeded, &lifts);
        let lifts = lifelike_lifts(&mut seeded, LARGE_TOWN);
        course.run(&mut seeded, &lifts);
    }
    course.check(500);
}
