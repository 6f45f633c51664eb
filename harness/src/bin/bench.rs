//! Times the archive's choice for a whole sheet, with and without next quarter's sheet, and its taking of counts, each beside its peers:
//! make bench

use harness::examples::TOWN;
use harness::reference::{write_sheet, Intake, Reply, SheetLift, LONGEST_SHEET, MOST_LIFTS};
use harness::seeded::Seeded;
use harness::sheets::{lifelike_lifts, Town};
use harness::texts::text_of;
use harness::timing::{times, Peer, Table};
use harness::{archive, plain, reference};

/// How many sheets of each size are chosen from in turn.
const SHEETS: u64 = 8;

/// How many random words are lent.
const WORDS: usize = 4_096;

/// How many rounds a sheet has, and how many of the new ones are redrawn from two.
const ROUNDS: usize = 100;
const REDRAWN: usize = 20;

/// What is lent for a choice: a sheet, random words, an output and a list for next quarter's sheet, both with room for any.
#[derive(Clone, PartialEq)]
struct Lent {
    sheet: Vec<u32>,
    words: Vec<u64>,
    out: [u32; 2 * ROUNDS],
    next: Vec<u32>,
}

/// A choice for a whole sheet with words read from a start on and an output; and one that writes next quarter's sheet too.
type Choose = fn(&[u32], &[u64], usize, &mut [u32]) -> Reply;
type ChooseNext = fn(&[u32], &[u64], usize, &mut [u32], &mut [u32]) -> Reply;

/// Those who choose, and the bare pass over the sheet's words, which gives no reply.
const CHOOSERS: [Peer<Lent, Option<Reply>>; 4] = [
    ("archive", |lent| lent.choose(archive::choose_panel)),
    ("bare", |lent| lent.read_words()),
    ("plain", |lent| lent.choose(plain::choose_panel)),
    ("reference", |lent| lent.choose(reference::choose_panel)),
];

/// Those who write next quarter's sheet too, and the bare pass.
const NEXT_CHOOSERS: [Peer<Lent, Option<Reply>>; 3] = [
    ("archive", |lent| lent.choose_next(archive::choose_next)),
    ("bare", |lent| lent.read_words()),
    ("reference", |lent| lent.choose_next(reference::choose_next)),
];

/// What is lent for taking counts: a text and a sheet, which is written anew before each call.
#[derive(Clone, PartialEq)]
struct LentText {
    sheet: Vec<u32>,
    unchanged: Vec<u32>,
    text: Vec<u8>,
}

/// Those who take counts.
const TAKERS: [Peer<LentText, Intake>; 3] = [
    ("archive", |lent| lent.take(archive::take_counts)),
    ("plain", |lent| lent.take(plain::take_counts)),
    ("reference", |lent| lent.take(reference::take_counts)),
];

impl Lent {
    /// Chooses.
    fn choose(&mut self, choose: Choose) -> Option<Reply> {
        Some(choose(&self.sheet, &self.words, 0, &mut self.out))
    }

    /// Chooses and writes next quarter's sheet.
    fn choose_next(&mut self, choose: ChooseNext) -> Option<Reply> {
        let (out, next) = (&mut self.out, &mut self.next);
        Some(choose(&self.sheet, &self.words, 0, out, next))
    }

    /// Reads the sheet's words, the least that any program must do with it.
    fn read_words(&mut self) -> Option<Reply> {
        plain::read_words(&self.sheet).expect("no word is faulty");
        None
    }
}

impl LentText {
    /// Takes the counts.
    fn take(&mut self, take: fn(&mut [u32], &[u8]) -> Intake) -> Intake {
        take(&mut self.sheet, &self.text)
    }

    /// Writes the sheet anew.
    fn renew(&mut self) {
        self.sheet.copy_from_slice(&self.unchanged);
    }
}

fn main() {
    print_choices();
    println!();
    print_takings();
}

/// Prints the times of choices from sheets of three sizes, and of those that write next quarter's sheet too.
fn print_choices() {
    let mut table = Table::new(&["call", "lifts", "words"], &CHOOSERS);
    for lifts in [256, 1_024, MOST_LIFTS] {
        add_choices(&mut table, "choose", &CHOOSERS, lifts);
    }
    add_choices(&mut table, "choose_next", &NEXT_CHOOSERS, MOST_LIFTS);
    table.print();
}

/// Adds the times of choices of this name from sheets of so many lifts. From smaller sheets more are made between two readings of the clock,
/// so that these take no larger part.
fn add_choices(
    table: &mut Table,
    name: &str,
    choosers: &[Peer<Lent, Option<Reply>>],
    lifts: usize,
) {
    let mut lent: Vec<Lent> = (0..SHEETS).map(|seed| lend(lifts, seed)).collect();
    let read: usize = lent.iter().map(|lent| words_read(choosers, lent)).sum();
    let times = times(choosers, &mut lent, MOST_LIFTS / lifts, |_| ());
    let read = read as f64 / SHEETS as f64;
    let told = [name.to_string(), lifts.to_string(), format!("{read:.1}")];
    table.add(&told, &times);
}

/// What is lent for a choice from so many lifts, by a seed.
fn lend(lifts: usize, seed: u64) -> Lent {
    let town = Town {
        lifts,
        rounds: ROUNDS,
        redrawn: REDRAWN,
    };
    let mut seeded = Seeded::new(lifts as u64 + seed);
    Lent {
        sheet: write_sheet(&lifelike_lifts(&mut seeded, town)),
        words: (0..WORDS).map(|_| seeded.word()).collect(),
        out: [0; 2 * ROUNDS],
        next: vec![0; LONGEST_SHEET],
    }
}

/// How many words a choice reads; all who choose agree on it and on what they write.
fn words_read(choosers: &[Peer<Lent, Option<Reply>>], lent: &Lent) -> usize {
    let answers = choosers.iter().filter_map(|(_, choose)| {
        let mut lent = lent.clone();
        let reply = choose(&mut lent)?;
        Some((reply, lent))
    });
    match agreed(answers) {
        Reply::Chosen { choices, words } if choices == ROUNDS => words,
        reply => panic!("{reply:?}"),
    }
}

/// The answer of all; they agree on what they wrote too.
fn agreed<A: PartialEq, C: PartialEq>(mut answers: impl Iterator<Item = (A, C)>) -> A {
    let first = answers.next().expect("there is an answer");
    assert!(answers.all(|answer| answer == first), "the peers differ");
    first.0
}

/// Prints the times of taking a line for each lift of a town, in the order of the sheet and in another.
fn print_takings() {
    let mut table = Table::new(&["lines", "order"], &TAKERS);
    let mut lifts = lifelike_lifts(&mut Seeded::new(1), TOWN);
    let sheet = write_sheet(&lifts);
    lifts.iter_mut().for_each(halve);
    add_takings(&mut table, &sheet, &lifts, "rising");
    Seeded::new(2).shuffle(&mut lifts);
    add_takings(&mut table, &sheet, &lifts, "shuffled");
    table.print();
}

/// Halves a lift's new measure, rounded up.
fn halve(lift: &mut SheetLift) {
    lift.new_measure = lift.new_measure.div_ceil(2);
}

/// Adds the times of taking a line for each of these lifts, in an order of this name.
fn add_takings(table: &mut Table, sheet: &[u32], lifts: &[SheetLift], order: &str) {
    let lent = LentText {
        sheet: sheet.to_vec(),
        unchanged: sheet.to_vec(),
        text: text_of(lifts),
    };
    let lines = lines_taken(&lent);
    let times = times(&TAKERS, &mut [lent], 1, LentText::renew);
    table.add(&[lines.to_string(), order.to_string()], &times);
}

/// How many lines are taken; all takers agree on them and on the sheet.
fn lines_taken(lent: &LentText) -> usize {
    let answers = TAKERS.iter().map(|(_, take)| {
        let mut lent = lent.clone();
        (take(&mut lent), lent)
    });
    match agreed(answers) {
        Intake::Taken { lines } => lines,
        reply => panic!("{reply:?}"),
    }
}
