//! Compares the archive's choice for a whole sheet, by both calls that make it, with the reference: the document's cases, its traps and
//! seeded sheets. The archive's shares are exact. The plain version agrees with the reference.

use harness::lent::{any_count, any_len, any_start, chosen, number_of, refused, Marked, Script};
use harness::reference::{choose_by, donors, new_rounds, new_sum, old_sum};
use harness::reference::{read_sheet, write_sheet, Reply, Round, Sheet, SheetLift};
use harness::seeded::Seeded;
use harness::sheets::{add_round_words, any_lifts, damaged_sheet, fitting_lifts};
use harness::sheets::{filled_in, held, lift, longest, numbered, Place, EXAMPLE, NONE};
use harness::ways::{step, Drawn, Weights};
use harness::{archive, plain, reference};
use std::collections::BTreeSet;

/// What is lent for a choice: the output's length stands for the output.
#[derive(Clone, Copy, Debug)]
struct Lent<'a> {
    sheet: &'a [u32],
    words: &'a [u64],
    start: usize,
    out_len: usize,
}

/// A choice for a whole sheet.
type Chooser = fn(&[u32], &[u64], usize, &mut [u32]) -> Reply;

/// What means "not counted" in a new place: all ones.
const NOT_COUNTED: u32 = 2_097_151;

/// The archive's choices: by the call for choices alone, and by the one that writes next quarter's sheet, with room for it.
const PROVED: [Chooser; 2] = [archive::choose_panel, |sheet, words, start, out| {
    archive::choose_next(sheet, words, start, out, &mut [0; 12_389])
}];

/// The reply, and the output between marks.
fn run(choose: Chooser, lent: Lent) -> (Reply, Marked) {
    let mut out = Marked::new(lent.out_len);
    let reply = choose(lent.sheet, lent.words, lent.start, out.lent());
    (reply, out)
}

/// A reply and an output on which archive and reference agree; nothing but the pairs is written.
fn agreed_output(lent: Lent) -> (Reply, Vec<u32>) {
    let expected = run(reference::choose_panel, lent);
    for choose in PROVED {
        assert_eq!(run(choose, lent), expected, "{lent:08X?}");
    }
    let (reply, out) = expected;
    match reply {
        Reply::Chosen { choices, .. } => (reply, out.written(2 * choices)),
        Reply::Refused { .. } => (reply, out.written(0)),
    }
}

/// A reply on which archive and reference agree, their outputs too.
fn agreed(lent: Lent) -> Reply {
    agreed_output(lent).0
}

/// A round, its chosen lift and the outcome.
type Choice = (u32, u32, u32);

/// The output's words for these choices.
fn pairs(choices: &[Choice]) -> Vec<u32> {
    let pair = |&(round, lift, outcome): &Choice| [5 << 28 | round << 21 | outcome, 6 << 28 | lift];
    choices.iter().flat_map(pair).collect()
}

/// Checks a sheet's choices from words that just suffice, and what comes of more and of less being lent.
fn check(name: &str, sheet: &[u32], words: &[u64], choices: &[Choice]) {
    let (count, out_len) = (choices.len(), 2 * choices.len());
    let lent = Lent {
        sheet,
        words,
        start: 0,
        out_len,
    };
    let expected = (chosen(count, words.len()), pairs(choices));
    assert_eq!(agreed_output(lent), expected, "{name}");
    let more = [&[7, u64::MAX], words, &[0, 1]].concat();
    let more = Lent {
        words: &more,
        start: 2,
        out_len: out_len + 3,
        ..lent
    };
    assert_eq!(agreed_output(more), expected, "{name}");
    for end in 0..words.len() {
        let words = &words[..end];
        let reply = agreed(Lent { words, ..lent });
        assert!(
            matches!(reply, Reply::Refused { number: 13, .. }),
            "{name}: {reply:?}"
        );
    }
    for out_len in 0..out_len {
        let reply = agreed(Lent { out_len, ..lent });
        assert_eq!(reply, refused(12, 2 * count), "{name}");
    }
    let start = words.len() + 1;
    let behind = Lent { start, ..lent };
    assert_eq!(agreed(behind), refused(11, start), "{name}");
}

/// A case of the document, in new round 1 with old rounds 1 and 2.
struct Case {
    name: &'static str,
    lifts: Vec<SheetLift>,
    words: Vec<u64>,
    /// The chosen lift's place among the lifts.
    place: u32,
    outcome: u32,
}

/// The case of these lifts, of which those at the places of `marked` are held.
fn case(
    name: &'static str,
    (lifts, marked): (&[SheetLift], &[usize]),
    words: &[u64],
    place: u32,
    outcome: u32,
) -> Case {
    let mut lifts = lifts.to_vec();
    marked.iter().for_each(|&place| lifts[place].held = true);
    Case {
        name,
        lifts,
        words: words.to_vec(),
        place,
        outcome,
    }
}

/// M1 to M11; M4 and M5 as a fresh choice among three newcomers.
fn worked_cases() -> Vec<Case> {
    let three = [(2, 4), (3, 1), (5, 5)].map(|(old, new)| lift((1, old), (1, new)));
    let newcomers = [lift(NONE, (1, 1)); 3];
    let two = [
        lift((1, 1), (1, 1)),
        lift((2, 3), (1, 1)),
        lift((1, 3), NONE),
        lift((2, 3), NONE),
    ];
    let no_chance = [lift((1, 3), (1, 0)), lift((1, 7), (1, 1))];
    vec![
        case("M1", (&three, &[1]), &[9], 1, 1),
        case("M2", (&three, &[1]), &[10, 0], 0, 2),
        case("M3", (&three, &[2]), &[], 2, 1),
        case("M4", (&newcomers, &[]), &[u64::MAX, 7], 1, 3),
        case("M5", (&newcomers, &[]), &[u64::MAX - 1], 2, 3),
        case("M6", (&two, &[0, 1]), &[11], 0, 1),
        case("M7", (&two, &[0, 1]), &[12, 17], 1, 1),
        case("M8", (&two, &[0, 1]), &[12, 18, 5], 0, 1),
        case("M9", (&two, &[2, 3]), &[1], 1, 3),
        case("M10", (&two, &[2, 1]), &[18, 0], 0, 2),
        case("M11 lowest", (&no_chance, &[0]), &[0, 0], 1, 2),
        case("M11 highest", (&no_chance, &[0]), &[2, 2], 1, 2),
    ]
}

#[test]
fn example_is_chosen() {
    check("example", &EXAMPLE, &[10, 0], &[(1, 11, 2)]);
}

#[test]
fn worked_cases_alone() {
    for case in worked_cases() {
        let sheet = write_sheet(&numbered(&case.lifts, 11));
        let choices = [(1, 11 + case.place, case.outcome)];
        check(case.name, &sheet, &case.words, &choices);
    }
}

#[test]
fn worked_cases_without_counts() {
    let mut silenced = 0;
    for case in worked_cases() {
        let mut lifts = numbered(&case.lifts, 11);
        let known = lifts.iter_mut().filter(|lift| lift.old_round > 0);
        let same = known.filter(|lift| lift.old_measure == lift.new_measure);
        for lift in same {
            lift.new_measure = NOT_COUNTED;
            silenced += 1;
        }
        let choices = [(1, 11 + case.place, case.outcome)];
        check(case.name, &write_sheet(&lifts), &case.words, &choices);
    }
    // Lift 13 of M1 to M3 and lift 21 of M6 to M10.
    assert_eq!(silenced, 3 + 5);
}

/// Checks the choice of new round 1 for lifts numbered from 1 up.
fn check_round_1(lifts: &[SheetLift], words: &[u64], (number, outcome): (u32, u32)) {
    let sheet = write_sheet(&numbered(lifts, 1));
    let choices = [(1, number, outcome)];
    check(&format!("{lifts:?}"), &sheet, words, &choices);
}

#[test]
fn a_held_lift_without_a_count_stays_if_nothing_else_changed() {
    for place in 0..3 {
        let mut lifts = [3, 7, 1, 0].map(|measure| lift((5, measure), (1, measure)));
        lifts[place].held = true;
        for silent in 0..1 << 4 {
            let mut lifts = lifts;
            for (bit, lift) in lifts.iter_mut().enumerate() {
                if silent >> bit & 1 == 1 {
                    lift.new_measure = NOT_COUNTED;
                }
            }
            check_round_1(&lifts, &[], (place as u32 + 1, 1));
        }
    }
}

#[test]
fn a_lift_without_a_count_weighs_by_its_old_measure() {
    // Old 3, 7, new 3, 9: old weights 36, 84, new 30, 90, G 6.
    let shrinking = [held((1, 3), (1, NOT_COUNTED)), lift((1, 7), (1, 9))];
    check_round_1(&shrinking, &[29], (1, 1));
    check_round_1(&shrinking, &[30, 5], (2, 2));
    // Old 3, 7, new 3, 5: old weights 24, 56, new 30, 50.
    let growing = [held((1, 3), (1, NOT_COUNTED)), lift((1, 7), (1, 5))];
    check_round_1(&growing, &[], (1, 1));
    // Old 7, 3, 1, new 1, 3, 0: old weights 28, 12, 4, new 11, 33, 0, G 21.
    let replacing = [
        held((1, 7), (1, 1)),
        lift((1, 3), (1, NOT_COUNTED)),
        lift((1, 1), (1, 0)),
    ];
    check_round_1(&replacing, &[10], (1, 1));
    check_round_1(&replacing, &[11, 20], (2, 2));
    // New 0, 3, 4.
    let fresh = [
        lift((1, 0), (1, NOT_COUNTED)),
        lift((1, 3), (1, NOT_COUNTED)),
        lift(NONE, (1, 4)),
        held((1, 2), NONE),
    ];
    check_round_1(&fresh, &[0], (2, 3));
    check_round_1(&fresh, &[2], (2, 3));
    check_round_1(&fresh, &[3], (3, 3));
    check_round_1(&fresh, &[6], (3, 3));
}

#[test]
fn two_rounds_without_counts_are_joined() {
    // Old 4 of 4 and 6 of 6, new the same: D 48, old weights 240, 240, new 192, 288, G 48.
    let both = [(1, 4), (2, 6)].map(|old| held(old, (1, NOT_COUNTED)));
    check_round_1(&both, &[23, 191], (1, 1));
    check_round_1(&both, &[23, 192, 47], (2, 1));
    check_round_1(&both, &[24], (2, 1));
    // Old 4 of 4 and 5 of 6, new the same: D 44, old weights 216, 180, new 176, 220, G 40.
    let first = [
        held((1, 4), (1, NOT_COUNTED)),
        lift((2, 5), (1, NOT_COUNTED)),
        held((2, 1), NONE),
    ];
    check_round_1(&first, &[175], (1, 1));
    check_round_1(&first, &[176, 39], (2, 2));
}

/// A case's lifts in another new round and in old rounds higher by so many; round 0 stays.
fn moved(lifts: &[SheetLift], old_by: u32, new_round: u32) -> Vec<SheetLift> {
    let moved = |lift: &SheetLift| SheetLift {
        old_round: lift.old_round + old_by * lift.old_round.min(1),
        new_round: new_round * lift.new_round,
        ..*lift
    };
    lifts.iter().map(moved).collect()
}

#[test]
fn worked_cases_together() {
    let mut lifts = Vec::new();
    let mut choices = Vec::new();
    let mut words = Vec::new();
    for (place, case) in (0..).zip(worked_cases()) {
        // The later the case, the lower its new round and the higher its old ones.
        let new_round = 100 - 8 * place;
        choices.push((new_round, lifts.len() as u32 + 1 + case.place, case.outcome));
        words.push(case.words);
        lifts.extend(moved(&case.lifts, 50 + 2 * place, new_round));
    }
    choices.reverse();
    words.reverse();
    let sheet = write_sheet(&numbered(&lifts, 1));
    check("together", &sheet, &words.concat(), &choices);
}

/// The reply to the sheet of lifts numbered from 1 up, with room for any choices.
fn agreed_on(lifts: &[SheetLift], words: &[u64], start: usize) -> Reply {
    agreed(Lent {
        sheet: &write_sheet(&numbered(lifts, 1)),
        words,
        start,
        out_len: 200,
    })
}

#[test]
fn sheets_without_new_rounds_have_no_choices() {
    check("no lifts", &[0xF000_0000], &[], &[]);
    let withdrawn = [held((1, 1), NONE), lift((1, 9), NONE), lift(NONE, NONE)];
    check(
        "withdrawn",
        &write_sheet(&numbered(&withdrawn, 1)),
        &[],
        &[],
    );
    assert_eq!(agreed_on(&[], &[5, 6], 2), chosen(0, 0));
    assert_eq!(agreed_on(&[], &[5, 6], 3), refused(11, 3));
}

#[test]
fn start_may_be_the_end() {
    let shrinking = [held((1, 2), (1, 1)), lift((1, 1), (1, 2))];
    let growing = [lift((1, 2), (1, 1)), held((1, 1), (1, 2))];
    assert_eq!(agreed_on(&growing, &[5, 6], 2), chosen(1, 0));
    assert_eq!(agreed_on(&shrinking, &[5, 6], 2), refused(13, 1));
    for start in [3, 4, 1 << 32, 1 << 63, usize::MAX] {
        assert_eq!(agreed_on(&growing, &[5, 6], start), refused(11, start));
        assert_eq!(agreed_on(&shrinking, &[5, 6], start), refused(11, start));
    }
}

#[test]
fn long_lists_are_read_to_their_end() {
    let mut words = vec![u64::MAX; 70_000];
    words.extend([10, 0]);
    for start in [0, 7, 69_999, 70_000] {
        let lent = Lent {
            sheet: &EXAMPLE,
            words: &words,
            start,
            out_len: 2,
        };
        let expected = (chosen(1, words.len() - start), pairs(&[(1, 11, 2)]));
        assert_eq!(agreed_output(lent), expected);
        let (_, fewer) = words.split_last().expect("there are words");
        let short = Lent {
            words: fewer,
            ..lent
        };
        assert_eq!(agreed(short), refused(13, 1));
    }
}

#[test]
fn refusals_come_in_order() {
    let mut lent = Lent {
        sheet: &EXAMPLE[1..],
        words: &[10],
        start: 2,
        out_len: 1,
    };
    assert_eq!(agreed(lent), refused(2, 0));
    let newcomer = [0x1000_0001, 0x2000_0000, 0x303F_FFFF, 0xF000_0001];
    lent.sheet = &newcomer;
    assert_eq!(agreed(lent), refused(16, 2));
    let withdrawn = [0x1000_0001, 0x2000_0000, 0x301F_FFFF, 0xF000_0001];
    lent.sheet = &withdrawn;
    assert_eq!(agreed(lent), refused(4, 2));
    lent.sheet = &EXAMPLE;
    assert_eq!(agreed(lent), refused(11, 2));
    lent.start = 1;
    assert_eq!(agreed(lent), refused(12, 2));
    lent.out_len = 2;
    assert_eq!(agreed(lent), refused(13, 1));
    lent.start = 0;
    assert_eq!(agreed(lent), refused(13, 1));
    lent.words = &[10, 0];
    assert_eq!(agreed(lent), chosen(1, 2));
}

#[test]
fn limits_pass() {
    let top = 1_048_576;
    let sums = |last| [held((1, top - 1), (1, 1)), lift((1, 1), (1, last))];
    let largest = write_sheet(&numbered(&sums(top - 1), 1));
    check("largest", &largest, &[u64::from(top), 0], &[(1, 2, 2)]);
    check("largest", &largest, &[u64::from(top) - 1], &[(1, 1, 1)]);
    assert_eq!(agreed_on(&sums(top), &[0, 0], 0), refused(8, 1));
    // Old top - 1, new the same and a newcomer's 1: old weight top × (top - 1), new (top - 1)², G top - 1.
    let beside = |new| [held((1, top - 1), (1, NOT_COUNTED)), lift(NONE, (1, new))];
    let new_weight = u64::from(top - 1).pow(2);
    check_round_1(&beside(1), &[new_weight - 1], (1, 1));
    check_round_1(&beside(1), &[new_weight, u64::from(top) - 2], (2, 2));
    assert_eq!(agreed_on(&beside(2), &[0, 0], 0), refused(8, 1));
    check_round_1(&[held((1, top), (1, NOT_COUNTED))], &[], (1, 1));
    let in_round = |round| [held((round, 1), (round, 1))];
    let highest = write_sheet(&numbered(&in_round(100), 1));
    check("round 100", &highest, &[], &[(100, 1, 1)]);
    assert_eq!(agreed_on(&in_round(101), &[], 0), refused(4, 1));
    let sent = [3, 2, 1].map(|old_round| held((old_round, 1), (9, 1)));
    assert_eq!(agreed_on(&sent[1..], &[0, 0, 0], 0), chosen(1, 1));
    assert_eq!(agreed_on(&sent, &[0, 0, 0], 0), refused(10, 9));
}

#[test]
fn held_lift_of_a_split_round_is_in_one_part() {
    // Old round 5 of sum 10 goes to 3 and 4; its held lift is in 4 and shrinks there.
    let lifts = [
        lift((5, 2), (3, 4)),
        lift((5, 3), (4, 3)),
        lift((5, 1), (3, 1)),
        held((5, 4), (4, 1)),
    ];
    let sheet = write_sheet(&numbered(&lifts, 1));
    check("kept", &sheet, &[4, 6], &[(3, 3, 3), (4, 4, 1)]);
    check("dropped", &sheet, &[3, 7, 8], &[(3, 1, 3), (4, 2, 2)]);
}

/// What is lent for a script's choice: words and output just suffice.
fn lent_of(script: &Script) -> Lent<'_> {
    Lent {
        sheet: &script.sheet,
        words: &script.words,
        start: script.start,
        out_len: 2 * script.rounds,
    }
}

/// Checks that the first so many words do not suffice, and gives the round that lacks one.
fn check_short(script: &Script, count: usize) -> u32 {
    let round = script.round_of_word[count];
    let reply = agreed(Lent {
        words: &script.words[..count],
        ..lent_of(script)
    });
    assert_eq!(reply, refused(13, round as usize));
    round
}

/// Checks that the words just suffice and that more words behind them change nothing.
fn check_whole(script: &Script, seeded: &mut Seeded) {
    let exact = agreed_output(lent_of(script));
    let read = script.words.len() - script.start;
    assert_eq!(exact.0, chosen(script.rounds, read));
    let mut words = script.words.clone();
    words.extend((0..1 + seeded.index(3)).map(|_| seeded.word()));
    let more = Lent {
        words: &words,
        out_len: 2 * script.rounds + seeded.index(4),
        ..lent_of(script)
    };
    assert_eq!(agreed_output(more), exact);
}

#[test]
fn every_shorter_list_is_refused() {
    let mut seeded = Seeded::new(10);
    let mut short_rounds = BTreeSet::new();
    for _ in 0..50_000 {
        let count = seeded.index(13);
        let lifts = fitting_lifts(&mut seeded, count, 6);
        let script = Script::new(&mut seeded, lifts);
        let counts = script.start..script.words.len();
        short_rounds.extend(counts.map(|count| check_short(&script, count)));
        check_whole(&script, &mut seeded);
    }
    assert!(short_rounds.into_iter().eq(1..=100));
}

#[test]
fn longest_sheet_is_refused_short_in_every_round() {
    let mut seeded = Seeded::new(14);
    let script = Script::longest(&mut seeded);
    assert_eq!((script.sheet.len(), script.rounds), (12_389, 100));
    let counts = script.start..script.words.len();
    let short_rounds: BTreeSet<u32> = counts.map(|count| check_short(&script, count)).collect();
    assert!(short_rounds.into_iter().eq(1..=100));
    check_whole(&script, &mut seeded);
}

#[test]
fn longest_sheet_without_counts_keeps_every_recorder() {
    let mut lifts = longest();
    for lift in &mut lifts {
        lift.new_measure = NOT_COUNTED;
    }
    let held = lifts.iter().filter(|lift| lift.held);
    let mut kept: Vec<Choice> = held.map(|lift| (lift.new_round, lift.number, 1)).collect();
    kept.sort_unstable();
    check("no counts", &write_sheet(&lifts), &[], &kept);
}

#[test]
fn full_sheets_agree() {
    let mut seeded = Seeded::new(11);
    for _ in 0..300 {
        let count = 4_096 - seeded.index(20);
        let lifts = fitting_lifts(&mut seeded, count, 1_500);
        let script = Script::new(&mut seeded, lifts);
        check_whole(&script, &mut seeded);
        let counts = script.start..script.words.len();
        if !counts.is_empty() {
            check_short(&script, counts.start + seeded.index(counts.len()));
            check_short(&script, counts.end - 1);
        }
    }
}

/// Calls `seen` with what is lent for a choice from these lifts' sheet: at times the sheet is damaged, words lack, the start is bad or the
/// output short.
fn lend(seeded: &mut Seeded, lifts: Vec<SheetLift>, seen: impl FnOnce(Lent) -> Reply) -> Reply {
    let script = Script::new(seeded, lifts);
    let damaged = match seeded.below(2) {
        0 => damaged_sheet(seeded, script.lifts.clone(), 3),
        _ => script.sheet.clone(),
    };
    let count = any_count(seeded, script.words.len());
    seen(Lent {
        sheet: &damaged,
        words: &script.words[..count],
        start: any_start(seeded, script.start, count),
        out_len: any_len(seeded, 2 * script.rounds),
    })
}

/// Checks that choices and each number but 16 were given so often, 16 ten times as often, and 14 and 15 never: there is no text.
fn check_reached(counts: &[usize; 17], least: usize) {
    let [given @ .., 0, 0, newcomers] = counts else {
        panic!("{counts:?}");
    };
    assert!(given.iter().all(|&sheets| sheets >= least), "{counts:?}");
    assert!(*newcomers >= 10 * least, "{counts:?}");
}

#[test]
fn seeded_sheets_agree() {
    let mut seeded = Seeded::new(12);
    let mut counts = [0; 17];
    for _ in 0..120_000 {
        let lifts = any_lifts(&mut seeded);
        let reply = lend(&mut seeded, lifts, agreed);
        counts[number_of(reply)] += 1;
    }
    check_reached(&counts, 100);
}

/// A reply on which the plain version and the reference agree, their outputs too.
fn agreed_by_plain(lent: Lent) -> Reply {
    let expected = run(reference::choose_panel, lent);
    let plain = run(plain::choose_panel, lent);
    assert_eq!(plain, expected, "{lent:08X?}");
    expected.0
}

#[test]
fn plain_version_agrees() {
    let mut seeded = Seeded::new(27);
    let mut counts = [0; 17];
    for _ in 0..60_000 {
        let lifts = any_lifts(&mut seeded);
        let reply = lend(&mut seeded, lifts, agreed_by_plain);
        counts[number_of(reply)] += 1;
    }
    check_reached(&counts, 50);
}

#[test]
fn plain_version_agrees_on_full_sheets() {
    let mut seeded = Seeded::new(28);
    let (mut longest, mut chosen) = (0, 0);
    for most_rounds in [1, 3, 20_000].repeat(100) {
        let lifts = fitting_lifts(&mut seeded, 4_096, most_rounds);
        longest += usize::from(write_sheet(&lifts).len() == 12_389);
        let reply = lend(&mut seeded, lifts, agreed_by_plain);
        chosen += usize::from(number_of(reply) == 0);
    }
    let script = Script::longest(&mut seeded);
    agreed_by_plain(lent_of(&script));
    assert!(longest >= 30 && chosen >= 30, "{longest} {chosen}");
}

/// Whether a lift was not counted.
fn is_silent(lift: &SheetLift) -> bool {
    lift.new_measure == NOT_COUNTED
}

/// A sheet that fits, some of whose lifts were not counted, and words that just suffice.
fn silent_script(seeded: &mut Seeded) -> Script {
    loop {
        let lifts = any_lifts(seeded);
        if lifts.iter().any(is_silent) {
            return Script::new(seeded, lifts);
        }
    }
}

/// The outcomes of an output's pairs that have a lift that was not counted.
fn silent_outcomes(lifts: &[SheetLift], pairs: &[u32]) -> Vec<usize> {
    let silent: BTreeSet<u32> = lifts
        .iter()
        .filter(|lift| is_silent(lift))
        .map(|lift| lift.number)
        .collect();
    let pairs = pairs.chunks(2);
    let pairs = pairs.filter(|pair| silent.contains(&(pair[1] - (6 << 28))));
    pairs.map(|pair| (pair[0] & 0x1F_FFFF) as usize).collect()
}

#[test]
fn sheets_with_lifts_not_counted_agree() {
    let mut seeded = Seeded::new(24);
    let (mut outcomes, mut held) = ([0; 4], 0);
    for _ in 0..50_000 {
        let script = silent_script(&mut seeded);
        let (_, pairs) = agreed_output(lent_of(&script));
        for outcome in silent_outcomes(&script.lifts, &pairs) {
            outcomes[outcome] += 1;
        }
        let mut lifts = script.lifts.iter();
        held += usize::from(lifts.any(|lift| lift.held && is_silent(lift)));
        check_whole(&script, &mut seeded);
    }
    assert!(
        outcomes[1..].iter().all(|&pairs| pairs >= 2_000),
        "{outcomes:?}"
    );
    assert!(held >= 5_000, "{held}");
}

#[test]
fn old_measures_in_place_of_counts_change_nothing() {
    let mut seeded = Seeded::new(25);
    let mut chosen = 0;
    for _ in 0..50_000 {
        let script = silent_script(&mut seeded);
        let count = any_count(&mut seeded, script.words.len());
        let lent = Lent {
            words: &script.words[..count],
            start: any_start(&mut seeded, script.start, count),
            out_len: any_len(&mut seeded, 2 * script.rounds),
            ..lent_of(&script)
        };
        let sheet = &filled_in(&script.sheet);
        assert_ne!(*sheet, script.sheet);
        let (reply, output) = agreed_output(lent);
        assert_eq!(agreed_output(Lent { sheet, ..lent }), (reply, output));
        chosen += usize::from(number_of(reply) == 0);
    }
    assert!(chosen >= 10_000, "{chosen}");
}

/// A place of small measure in one of the rounds, seldom in none.
fn small_place(seeded: &mut Seeded, rounds: &[u32]) -> Place {
    let round = rounds[seeded.index(rounds.len())];
    match seeded.below(6) {
        0 => NONE,
        _ => (round, seeded.below(3) as u32),
    }
}

/// Lifts in up to four old rounds and three new ones, none held; with any marking the sheet may not fit.
fn small_lifts(seeded: &mut Seeded) -> Vec<SheetLift> {
    let old_rounds = &[65, 2, 100, 64][..2 + seeded.index(3)];
    let new_rounds = &[64, 3, 99][..1 + seeded.index(3)];
    let mut lifts = Vec::new();
    for _ in 0..3 + seeded.index(5) {
        let old = small_place(seeded, old_rounds);
        let mut new = small_place(seeded, new_rounds);
        if old.0 > 0 && new.0 > 0 && seeded.below(4) == 0 {
            new.1 = NOT_COUNTED;
        }
        lifts.push(lift(old, new));
    }
    numbered(&lifts, 1)
}

/// Lifts with some held, and the product of the held lifts' old measures.
type Marking = (Vec<SheetLift>, u128);

/// All markings of the lifts.
fn markings(lifts: &[SheetLift]) -> Vec<Marking> {
    let old_rounds: BTreeSet<u32> = lifts.iter().map(|lift| lift.old_round).collect();
    let mut markings = vec![(lifts.to_vec(), 1)];
    for round in old_rounds.into_iter().filter(|&round| round > 0) {
        let further = markings.iter().flat_map(|marking| mark(marking, round));
        markings = further.collect();
    }
    markings
}

/// The markings that hold one lift of an old round further.
fn mark((lifts, weight): &Marking, round: u32) -> Vec<Marking> {
    let sent = lifts.iter().enumerate();
    let sent = sent.filter(|(_, lift)| lift.old_round == round && lift.old_measure > 0);
    let marked = sent.map(|(place, lift)| {
        let mut lifts = lifts.clone();
        lifts[place].held = true;
        (lifts, weight * u128::from(lift.old_measure))
    });
    marked.collect()
}

/// The sheet read, if it fits with any marking, has two old rounds or more and no sum above 6.
fn small_sheet(lifts: &[SheetLift]) -> Option<Sheet> {
    let (marked, _) = markings(lifts).into_iter().next()?;
    let sheet = read_sheet(&write_sheet(&marked)).ok()?;
    let old_sums = sheet.old_rounds.values().map(|lifts| old_sum(lifts));
    let new_sums = sheet.new_rounds.values().map(|lifts| new_sum(lifts));
    let small = old_sums.chain(new_sums).all(|sum| sum <= 6);
    (small && sheet.old_rounds.len() >= 2).then_some(sheet)
}

/// Adds words that give a round's draws these values, and 0 to further draws.
fn add_given(round: &Round, draws: &mut Vec<Drawn>, words: &mut Vec<u64>) {
    let mut made = 0;
    let chosen = choose_by(round, &mut |bound| {
        if made == draws.len() {
            draws.push((bound, 0));
        }
        let (_, value) = draws[made];
        made += 1;
        words.push(value as u64);
        Some(value)
    });
    chosen.expect("every draw is answered");
}

/// The archive's lift for the new round at this place by both calls, from words that just suffice.
fn lift_chosen(sheet: &[u32], words: &[u64], rounds: usize, place: usize) -> u32 {
    let [out, out_beside_next] = PROVED.map(|choose| {
        let mut out = vec![0; 2 * rounds];
        let reply = choose(sheet, words, 0, &mut out);
        assert_eq!(reply, chosen(rounds, words.len()));
        out
    });
    assert_eq!(out, out_beside_next);
    out[2 * place + 1] - (6 << 28)
}

/// Calls `seen` with the archive's lift and the draws for all values of the draws of the new round at this place, any values being given to the others.
fn all_ways(
    seeded: &mut Seeded,
    marked: &[SheetLift],
    place: usize,
    mut seen: impl FnMut(u32, &[Drawn]),
) {
    let sheet = write_sheet(marked);
    let rounds = new_rounds(&read_sheet(&sheet).expect("the sheet fits"));
    let mut draws = Vec::new();
    loop {
        let mut words = Vec::new();
        for (other, new_round) in rounds.iter().enumerate() {
            match other == place {
                true => add_given(&new_round.round, &mut draws, &mut words),
                false => add_round_words(seeded, &new_round.round, &mut words),
            }
        }
        let lift = lift_chosen(&sheet, &words, rounds.len(), place);
        seen(lift, &draws);
        if !step(&mut draws) {
            return;
        }
    }
}

/// Checks that the ways to each lift of each new round weigh exactly b over S, multiplied out, and counts them.
fn check_shares(seeded: &mut Seeded, lifts: &[SheetLift], sheet: &Sheet) -> usize {
    let mut ways = 0;
    let old_sums = sheet.old_rounds.values().map(|lifts| old_sum(lifts));
    let whole: u128 = old_sums.map(u128::from).product();
    for (place, (&round, in_round)) in sheet.new_rounds.iter().enumerate() {
        let mut weights = Weights::new(lifts.len());
        for (marked, weight) in markings(lifts) {
            all_ways(seeded, &marked, place, |lift, draws| {
                weights.add(lift as usize - 1, weight, draws);
                ways += 1;
            });
        }
        let (weights, common) = weights.total();
        for (lift, weight) in lifts.iter().zip(weights) {
            let here = u32::from(lift.new_round == round);
            let expected = whole * common * u128::from(here * lift.filled_measure());
            let weight = weight * u128::from(new_sum(in_round));
            assert_eq!(weight, expected, "{lift:?} in {round} of {lifts:?}");
        }
    }
    ways
}

/// How many rounds there are, by their donors and their held lifts here.
type Sorts = [[usize; 3]; 3];

/// Counts a sheet's new rounds with each marking: all of them, and those in which a lift was not counted.
fn count_sorts(lifts: &[SheetLift], sheet: &Sheet, sorts: &mut [Sorts; 2]) {
    for (marked, _) in markings(lifts) {
        for (&round, in_round) in &sheet.new_rounds {
            let here = marked.iter().filter(|lift| lift.new_round == round);
            let held = here.filter(|lift| lift.held).count();
            let silent = in_round.iter().any(is_silent);
            for sorts in &mut sorts[..=usize::from(silent)] {
                sorts[donors(in_round).len()][held] += 1;
            }
        }
    }
}

#[test]
fn shares_are_exact() {
    let mut seeded = Seeded::new(13);
    let (mut sheets, mut silent_sheets, mut ways) = (0, 0, 0);
    let mut sorts = [[[0; 3]; 3]; 2];
    while sheets < 120 {
        let lifts = small_lifts(&mut seeded);
        if let Some(sheet) = small_sheet(&lifts) {
            ways += check_shares(&mut seeded, &lifts, &sheet);
            count_sorts(&lifts, &sheet, &mut sorts);
            sheets += 1;
            silent_sheets += usize::from(lifts.iter().any(is_silent));
        }
    }
    assert!(ways >= 100_000, "{ways}");
    assert!(3 * silent_sheets >= sheets, "{silent_sheets}");
    let [[[none, ..], [one @ .., _], two], [_, [silent_one @ .., _], silent_two]] = sorts;
    let counts = [&[none][..], &one, &two].concat();
    assert!(counts.iter().all(|&rounds| rounds >= 10), "{sorts:?}");
    let silent_counts = [&silent_one[..], &silent_two].concat();
    assert!(silent_counts.iter().all(|&rounds| rounds >= 5), "{sorts:?}");
}
