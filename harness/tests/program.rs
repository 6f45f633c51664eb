//! Runs the proved program in fresh folders and compares what it prints with the reference, byte for byte.

use harness::examples::{examples, sheet_bytes, words_bytes, SHEET_FILE, WORDS_FILE};
use harness::reference::{self, read_sheet, write_sheet, SheetLift, LONGEST_SHEET};
use harness::seeded::Seeded;
use harness::sheets::{add_sheet_words, any_lifts, damaged_sheet, lifelike_lifts};
use harness::sheets::{lift, numbered, Town, EXAMPLE, NONE};
use std::fs::{self, File};
use std::path::{Path, PathBuf};
use std::process::{self, Command, Output, Stdio};
use std::sync::atomic::{AtomicUsize, Ordering};
use std::{env, iter};

/// The program, as `make program` and the gate leave it.
const PROGRAM: &str = concat!(env!("CARGO_MANIFEST_DIR"), "/../target/bin/choose");

/// How many random words the program reads.
const MOST_WORDS: usize = 4_096;

/// How many bytes the longest sheet has.
const MOST_BYTES: usize = 4 * LONGEST_SHEET;

/// A fresh folder, removed when it is dropped.
struct Folder {
    path: PathBuf,
}

impl Folder {
    /// An empty one.
    fn new() -> Folder {
        static COUNT: AtomicUsize = AtomicUsize::new(0);
        let count = COUNT.fetch_add(1, Ordering::Relaxed);
        let path = env::temp_dir().join(format!("choose-{}-{count}", process::id()));
        fs::create_dir(&path).expect("the folder is fresh");
        Folder { path }
    }

    /// Writes a file, if there is to be one.
    fn write(&self, name: &str, bytes: Option<&[u8]>) {
        if let Some(bytes) = bytes {
            fs::write(self.path.join(name), bytes).expect("the file is written");
        }
    }
}

impl Drop for Folder {
    fn drop(&mut self) {
        fs::remove_dir_all(&self.path).expect("the folder is removed");
    }
}

/// Runs the program in a folder.
fn run_in(folder: &Path, standard_output: Stdio) -> Output {
    assert!(
        Path::new(PROGRAM).is_file(),
        "{PROGRAM} is missing: run `make program`"
    );
    let mut program = Command::new(PROGRAM);
    program.current_dir(folder).stdin(Stdio::null());
    let child = program.stdout(standard_output).stderr(Stdio::piped());
    let child = child.spawn().expect("the program starts");
    child.wait_with_output().expect("the program ends")
}

/// What the program prints in a folder; its status is 0 and standard error stays empty.
fn printed_in(folder: &Path) -> String {
    let output = run_in(folder, Stdio::piped());
    assert_eq!(output.status.code(), Some(0), "{output:?}");
    assert!(output.stderr.is_empty(), "{output:?}");
    String::from_utf8(output.stdout).expect("the text is ASCII")
}

/// The text on which program and reference agree, given the bytes of the files that there are.
fn agreed(sheet: Option<&[u8]>, words: Option<&[u8]>) -> String {
    let folder = Folder::new();
    folder.write(SHEET_FILE, sheet);
    folder.write(WORDS_FILE, words);
    let printed = printed_in(&folder.path);
    let expected = reference::report(sheet.unwrap_or_default(), words.unwrap_or_default());
    assert!(
        printed == expected,
        "printed {printed:?}\nexpected {expected:?}\nsheet {sheet:02x?}\nwords {words:02x?}"
    );
    printed
}

/// The text on which program and reference agree, given a sheet and random words.
fn agreed_on(sheet: &[u32], words: &[u64]) -> String {
    agreed(Some(&sheet_bytes(sheet)), Some(&words_bytes(words)))
}

#[test]
fn examples_are_printed() {
    let top = Path::new(env!("CARGO_MANIFEST_DIR")).join("..");
    for example in examples() {
        let printed = printed_in(&top.join(example.folder));
        let expected = reference::report(&example.sheet, &example.words);
        assert_eq!(printed, expected, "{}", example.folder);
    }
    let small = printed_in(&top.join("example/small"));
    assert_eq!(small, "1 11 2\nwords 2\n");
    let quarter = printed_in(&top.join("example/quarter"));
    assert_eq!(quarter.lines().count(), 85);
}

/// The text for the example with another word at a position.
fn agreed_with(position: usize, word: u32, words: &[u64]) -> String {
    let mut sheet = EXAMPLE;
    sheet[position] = word;
    agreed_on(&sheet, words)
}

#[test]
fn lifts_not_counted_are_printed() {
    // Lift 12 held and not counted, new 4, 3, 5: old weight 36, new 30; lift 11 has 24 and 40, so G is 16.
    let not_counted = |words: &[u64]| agreed_with(5, 0x303F_FFFF, words);
    assert_eq!(not_counted(&[29]), "1 12 1\nwords 1\n");
    assert_eq!(not_counted(&[30, 0]), "1 11 2\nwords 2\n");
    assert_eq!(not_counted(&[]), "refused 13 1\n");
    assert_eq!(agreed_with(5, 0x303F_FFFE, &[]), "refused 4 5\n");
    assert_eq!(agreed_with(5, 0x301F_FFFF, &[]), "refused 4 5\n");
    assert_eq!(agreed_with(5, 0x3CBF_FFFF, &[]), "refused 4 5\n");
    assert_eq!(agreed_with(4, 0x203F_FFFF, &[]), "refused 4 4\n");
    let newcomer = [0x1000_0001, 0x2000_0000, 0x303F_FFFF, 0xF000_0001];
    assert_eq!(agreed_on(&newcomer, &[]), "refused 16 2\n");
}

#[test]
fn missing_and_empty_files_are_empty() {
    let (sheet, words) = (sheet_bytes(&EXAMPLE), words_bytes(&[10, 0]));
    let sheets = [None, Some(&[][..]), Some(&sheet)];
    let words = [None, Some(&[][..]), Some(&words)];
    let texts = sheets.map(|sheet| words.map(|words| agreed(sheet, words)));
    let unread = ["refused 1 0\n"; 3];
    let read = ["refused 13 1\n", "refused 13 1\n", "1 11 2\nwords 2\n"];
    assert_eq!(texts, [unread, unread, read]);
}

#[test]
fn folders_in_place_of_files_are_empty() {
    let folder = Folder::new();
    fs::create_dir(folder.path.join(SHEET_FILE)).expect("the place is free");
    folder.write(WORDS_FILE, Some(&words_bytes(&[10, 0])));
    assert_eq!(printed_in(&folder.path), "refused 1 0\n");
    let folder = Folder::new();
    folder.write(SHEET_FILE, Some(&sheet_bytes(&EXAMPLE)));
    fs::create_dir(folder.path.join(WORDS_FILE)).expect("the place is free");
    assert_eq!(printed_in(&folder.path), "refused 13 1\n");
}

#[test]
fn sheets_of_any_number_of_bytes_agree() {
    let sheet = sheet_bytes(&[&EXAMPLE[..], &EXAMPLE[..]].concat());
    let words = words_bytes(&[10, 0]);
    for len in 0..=sheet.len() {
        agreed(Some(&sheet[..len]), Some(&words));
    }
}

#[test]
fn unfinished_words_are_ignored() {
    let sheet = sheet_bytes(&EXAMPLE);
    let words = words_bytes(&[u64::MAX, 10, 0]);
    for len in 0..words.len() {
        let text = agreed(Some(&sheet), Some(&words[..len]));
        assert_eq!(text, "refused 13 1\n");
    }
    for unfinished in 0..8 {
        let words = [&words[..], &[7; 8][..unfinished]].concat();
        let text = agreed(Some(&sheet), Some(&words));
        assert_eq!(text, "1 11 2\nwords 3\n");
    }
}

#[test]
fn words_behind_the_most_are_not_read() {
    let passed_over = |count| vec![u64::MAX; count];
    let mut words = passed_over(MOST_WORDS - 2);
    words.extend([10, 0]);
    assert_eq!(agreed_on(&EXAMPLE, &words), "1 11 2\nwords 4096\n");
    words.extend(passed_over(100_000));
    assert_eq!(agreed_on(&EXAMPLE, &words), "1 11 2\nwords 4096\n");
    let mut words = passed_over(MOST_WORDS - 1);
    words.extend([10, 0]);
    assert_eq!(agreed_on(&EXAMPLE, &words), "refused 13 1\n");
}

/// A sheet of the greatest length, and random words.
fn longest(seeded: &mut Seeded) -> (Vec<u8>, Vec<u8>) {
    let town = Town {
        lifts: 4_096,
        rounds: 100,
        redrawn: 20,
    };
    let sheet = sheet_bytes(&write_sheet(&lifelike_lifts(seeded, town)));
    assert_eq!(sheet.len(), MOST_BYTES);
    let words: Vec<u64> = (0..MOST_WORDS).map(|_| seeded.word()).collect();
    (sheet, words_bytes(&words))
}

#[test]
fn long_sheets_agree() {
    let mut seeded = Seeded::new(20);
    let (sheet, words) = longest(&mut seeded);
    let text = agreed(Some(&sheet), Some(&words));
    assert_eq!(text.lines().count(), 101);
    let pieces = [0, 1, 2, 7, 600].map(|count| MOST_BYTES + count * (1 << 16));
    let powers = [1 << 17, 1 << 20, 1 << 24, 10_000_000];
    for len in pieces.into_iter().chain(powers) {
        for len in len - 5..=len + 5 {
            let sheet: Vec<u8> = sheet.iter().copied().cycle().take(len).collect();
            agreed(Some(&sheet), Some(&words));
        }
    }
}

#[test]
fn stack_of_a_mebibyte_suffices() {
    let folder = Folder::new();
    let (sheet, words) = longest(&mut Seeded::new(23));
    folder.write(SHEET_FILE, Some(&sheet));
    folder.write(WORDS_FILE, Some(&words));
    let limited = ["-c", "ulimit -s 1024 && exec \"$0\"", PROGRAM];
    let mut shell = Command::new("sh");
    let output = shell.args(limited).current_dir(&folder.path).output();
    let output = output.expect("the shell starts");
    let expected = reference::report(&sheet, &words);
    assert!(output.stdout == expected.as_bytes(), "{output:?}");
}

#[test]
fn sizes_beyond_32_bits_are_told() {
    let folder = Folder::new();
    let sheet = File::create(folder.path.join(SHEET_FILE)).expect("the file is made");
    let beyond = 1u64 << 32;
    for (size, place) in [(beyond + 5, beyond + 5), (beyond, beyond / 4)] {
        sheet.set_len(size).expect("the file may have holes");
        let text = printed_in(&folder.path);
        assert_eq!(text, format!("refused 1 {place}\n"));
    }
}

#[test]
fn longest_text_is_printed() {
    let lifts: Vec<SheetLift> = (1..=100).map(|round| lift(NONE, (round, 1))).collect();
    let sheet = write_sheet(&numbered(&lifts, (1 << 28) - 100));
    let mut words = vec![u64::MAX; MOST_WORDS - lifts.len()];
    words.resize(MOST_WORDS, 0);
    let text = agreed_on(&sheet, &words);
    assert!(text.ends_with("100 268435455 3\nwords 4096\n"));
    assert_eq!(text.len(), 9 * 14 + 90 * 15 + 16 + 11);
}

#[test]
fn failing_output_is_told() {
    let full = File::options().write(true).open("/dev/full");
    let full = full.expect("Linux has a full device");
    let output = run_in(&Folder::new().path, full.into());
    let told = String::from_utf8_lossy(&output.stderr);
    assert!(told.starts_with("standard output: "), "{told}");
}

/// Words that just suffice for a sheet that fits.
fn words_for(seeded: &mut Seeded, lifts: &[SheetLift]) -> Vec<u64> {
    let sheet = read_sheet(&write_sheet(lifts)).expect("the sheet fits");
    let mut words = Vec::new();
    add_sheet_words(seeded, &sheet, &mut words);
    words
}

#[test]
fn words_just_suffice() {
    let mut seeded = Seeded::new(21);
    for _ in 0..400 {
        let lifts = any_lifts(&mut seeded);
        let sheet = write_sheet(&lifts);
        let words = words_for(&mut seeded, &lifts);
        let text = agreed_on(&sheet, &words);
        assert!(text.ends_with(&format!("words {}\n", words.len())));
        let more = [&words[..], &[seeded.word()]].concat();
        assert_eq!(agreed_on(&sheet, &more), text);
        if let Some((_, fewer)) = words.split_last() {
            assert_eq!(number_of(&agreed_on(&sheet, fewer)), 13);
        }
    }
}

/// The document's number of a text, 0 for choices.
fn number_of(text: &str) -> usize {
    let Some(refusal) = text.strip_prefix("refused ") else {
        return 0;
    };
    let (number, _place) = refusal.split_once(' ').expect("a place follows");
    number.parse().expect("a number follows")
}

/// A sheet's bytes: of these lifts, half of the time damaged, seldom with bytes cut off or added.
fn any_sheet(seeded: &mut Seeded, lifts: Vec<SheetLift>) -> Vec<u8> {
    let sheet = match seeded.below(2) {
        0 => write_sheet(&lifts),
        _ => damaged_sheet(seeded, lifts, 3),
    };
    let mut bytes = sheet_bytes(&sheet);
    match seeded.below(16) {
        0 => bytes.truncate(bytes.len() - bytes.len().min(1 + seeded.index(3))),
        1 => bytes.extend(iter::repeat_n(7, 1 + seeded.index(3))),
        _ => {}
    }
    bytes
}

/// The bytes of random words: mostly of all, else of fewer or more, with an unfinished word at times.
fn any_words(seeded: &mut Seeded, mut words: Vec<u64>) -> Vec<u8> {
    match seeded.below(6) {
        0 => words.truncate(seeded.index(words.len() + 1)),
        1 => words.truncate(words.len() - words.len().min(1)),
        2 => words.resize(words.len() + seeded.index(6_000), seeded.word()),
        _ => {}
    }
    let mut bytes = words_bytes(&words);
    if seeded.below(2) == 0 {
        bytes.extend(iter::repeat_n(0, seeded.index(8)));
    }
    bytes
}

#[test]
fn seeded_files_agree() {
    let mut seeded = Seeded::new(22);
    let mut counts = [0; 17];
    for _ in 0..4_000 {
        let lifts = any_lifts(&mut seeded);
        let words = words_for(&mut seeded, &lifts);
        let sheet = any_sheet(&mut seeded, lifts);
        let words = any_words(&mut seeded, words);
        counts[number_of(&agreed(Some(&sheet), Some(&words)))] += 1;
    }
    // The start is 0, the output has room for all choices and there is no text, so 11, 12, 14 and 15 are never given.
    let [given @ .., 0, 0, short, 0, 0, newcomers] = counts else {
        panic!("{counts:?}");
    };
    assert!(given.iter().all(|&sheets| sheets >= 10), "{counts:?}");
    assert!(short >= 10 && newcomers >= 10, "{counts:?}");
}
