//! Ways to damage a text. After some of them it may still be taken.

use super::{Entries, Line};
use crate::seeded::Seeded;
use crate::sheets::{any, one_of};

/// The highest lift number and the largest count of a line.
const HIGHEST_NUMBER: u128 = 268_435_455;
const LARGEST_COUNT: u128 = 104_857_600;

/// A text's bytes.
type Text = Vec<u8>;

/// Damages entries, of which there is at least one.
type EntryDamage = fn(&mut Seeded, &mut Entries);

/// Damages a line.
type LineDamage = fn(&mut Seeded, &mut Line);

/// Damages a text of at least one byte.
type TextDamage = fn(&mut Seeded, &mut Text);

/// All ways to damage entries.
const ENTRY_DAMAGES: [EntryDamage; 8] = [
    repeat_entry,
    name_absent,
    name_0,
    name_highest,
    exceed_number,
    take_largest_count,
    exceed_count,
    swap_entries,
];

/// All ways to damage a line; bytes that belong into none are put in more often than others.
const LINE_DAMAGES: [LineDamage; 10] = [
    insert_strange,
    insert_strange,
    insert_strange,
    insert_strange,
    empty,
    remove_comma,
    cut_before_comma,
    cut_behind_comma,
    quote,
    change_byte,
];

/// All ways to damage a text.
const TEXT_DAMAGES: [TextDamage; 9] = [
    end_by_cr,
    drop_last_lf,
    end_by_empty_line,
    double_cr,
    drop_lf,
    drop_ending,
    insert_ending,
    cut_short,
    flip_bit,
];

/// Bytes that belong into no line, by their sorts.
const STRANGE: [&[u8]; 10] = [
    b" ",
    b"+-",
    b",",
    b"\"'",
    b"AFZaefxz",
    b"\0",
    b"\x80\xB2\xC2\xEF\xFF",
    b"\r",
    b"/:",
    b"\t\x0B\x0C.;_\x7F",
];

/// Damages entries, mostly once or not at all.
pub(super) fn damage_entries(seeded: &mut Seeded, entries: &mut Entries) {
    for _ in 0..any(seeded, &[0, 0, 1, 1, 2]) {
        if !entries.is_empty() {
            any(seeded, &ENTRY_DAMAGES)(seeded, entries);
        }
    }
}

/// Damages lines, mostly one or none.
pub(super) fn damage_lines(seeded: &mut Seeded, lines: &mut [Line]) {
    for _ in 0..any(seeded, &[0, 0, 1, 1, 2]) {
        if !lines.is_empty() {
            let line = one_of(seeded, lines);
            any(seeded, &LINE_DAMAGES)(seeded, line);
        }
    }
}

/// Damages a text, or not.
pub(super) fn damage_text(seeded: &mut Seeded, text: &mut Text) {
    if !text.is_empty() && seeded.below(2) == 0 {
        any(seeded, &TEXT_DAMAGES)(seeded, text);
    }
}

/// An entry's number comes again, with its count or another.
fn repeat_entry(seeded: &mut Seeded, entries: &mut Entries) {
    let (number, count) = any(seeded, entries);
    let counts = [count, seeded.below(400).into()];
    let again = (number, any(seeded, &counts));
    entries.insert(seeded.index(entries.len() + 1), again);
}

/// An entry's number is beside what it was, or any.
fn name_absent(seeded: &mut Seeded, entries: &mut Entries) {
    let any_number = seeded.below(1 << 28).into();
    let entry = one_of(seeded, entries);
    let numbers = [entry.0 + 1, entry.0.saturating_sub(1), any_number];
    entry.0 = any(seeded, &numbers);
}

/// An entry's number is 0.
fn name_0(seeded: &mut Seeded, entries: &mut Entries) {
    one_of(seeded, entries).0 = 0;
}

/// An entry's number is the highest.
fn name_highest(seeded: &mut Seeded, entries: &mut Entries) {
    one_of(seeded, entries).0 = HIGHEST_NUMBER;
}

/// An entry's number is above the highest.
fn exceed_number(seeded: &mut Seeded, entries: &mut Entries) {
    let number = &mut one_of(seeded, entries).0;
    *number = beyond(seeded, HIGHEST_NUMBER, *number);
}

/// An entry's count is the largest.
fn take_largest_count(seeded: &mut Seeded, entries: &mut Entries) {
    one_of(seeded, entries).1 = LARGEST_COUNT;
}

/// An entry's count is above the largest.
fn exceed_count(seeded: &mut Seeded, entries: &mut Entries) {
    let count = &mut one_of(seeded, entries).1;
    *count = beyond(seeded, LARGEST_COUNT, *count);
}

/// A number above the largest: by 1, by a power of two above what it was, or any.
fn beyond(seeded: &mut Seeded, largest: u128, number: u128) -> u128 {
    match seeded.below(4) {
        0 => largest + 1,
        1 => number + (1 << any(seeded, &[28, 31, 32, 33, 63, 64, 65, 96])),
        2 => u128::from(seeded.word()) << 64 | u128::from(seeded.word()),
        _ => largest + 1 + u128::from(seeded.word() >> seeded.below(64)),
    }
}

/// Two entries change places.
fn swap_entries(seeded: &mut Seeded, entries: &mut Entries) {
    let (one, other) = (seeded.index(entries.len()), seeded.index(entries.len()));
    entries.swap(one, other);
}

/// A byte that belongs into no line is put in.
fn insert_strange(seeded: &mut Seeded, line: &mut Line) {
    let bytes = any(seeded, &STRANGE);
    line.insert(seeded.index(line.len() + 1), any(seeded, bytes));
}

/// Nothing is left.
fn empty(_: &mut Seeded, line: &mut Line) {
    line.clear();
}

/// The comma is taken out.
fn remove_comma(_: &mut Seeded, line: &mut Line) {
    line.retain(|&byte| byte != b',');
}

/// What is before the comma is taken out.
fn cut_before_comma(_: &mut Seeded, line: &mut Line) {
    let comma = line.iter().position(|&byte| byte == b',');
    line.drain(..comma.unwrap_or(0));
}

/// What is behind the comma is taken out.
fn cut_behind_comma(_: &mut Seeded, line: &mut Line) {
    let comma = line.iter().position(|&byte| byte == b',');
    line.truncate(comma.map_or(0, |comma| comma + 1));
}

/// Quotes are put around a field or the line.
fn quote(seeded: &mut Seeded, line: &mut Line) {
    let comma = line.iter().position(|&byte| byte == b',').unwrap_or(0);
    let (first, last) = any(seeded, &[(0, comma), (comma, line.len()), (0, line.len())]);
    line.insert(last, b'"');
    line.insert(first, b'"');
}

/// A byte is any.
fn change_byte(seeded: &mut Seeded, line: &mut Line) {
    if !line.is_empty() {
        *one_of(seeded, line) = seeded.word() as u8;
    }
}

/// A CR follows.
fn end_by_cr(_: &mut Seeded, text: &mut Text) {
    text.push(b'\r');
}

/// The last LF, if the text ends by it, is left out or a CR stands in its place.
fn drop_last_lf(seeded: &mut Seeded, text: &mut Text) {
    if text.ends_with(b"\n") {
        text.pop();
        text.extend(any(seeded, &[None, Some(b'\r')]));
    }
}

/// An ending follows.
fn end_by_empty_line(seeded: &mut Seeded, text: &mut Text) {
    let endings: [&[u8]; 3] = [b"\n", b"\r\n", b"\n\n"];
    text.extend(any(seeded, &endings));
}

/// The position of one of the LFs, if there are any.
fn any_lf(seeded: &mut Seeded, text: &[u8]) -> Option<usize> {
    let all = text.iter().enumerate();
    let all = all.filter(|(_, &byte)| byte == b'\n');
    let all: Vec<usize> = all.map(|(position, _)| position).collect();
    all.get(seeded.index(all.len().max(1))).copied()
}

/// Two CRs stand before an LF, or more.
fn double_cr(seeded: &mut Seeded, text: &mut Text) {
    if let Some(position) = any_lf(seeded, text) {
        text.splice(position..position, *b"\r\r");
    }
}

/// A CR stands in place of an LF.
fn drop_lf(seeded: &mut Seeded, text: &mut Text) {
    if let Some(position) = any_lf(seeded, text) {
        text[position] = b'\r';
    }
}

/// An LF is taken out.
fn drop_ending(seeded: &mut Seeded, text: &mut Text) {
    if let Some(position) = any_lf(seeded, text) {
        text.remove(position);
    }
}

/// An LF is put in.
fn insert_ending(seeded: &mut Seeded, text: &mut Text) {
    text.insert(seeded.index(text.len() + 1), b'\n');
}

/// The text ends early.
fn cut_short(seeded: &mut Seeded, text: &mut Text) {
    text.truncate(seeded.index(text.len()));
}

/// A bit is flipped.
fn flip_bit(seeded: &mut Seeded, text: &mut Text) {
    *one_of(seeded, text) ^= 1 << seeded.below(8);
}
