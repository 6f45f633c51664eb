//! Counts taken into a sheet from the monitoring centre's text.

use super::sheet::Refusal;
use super::{read_lifts, read_sheet, write_sheet, SheetLift};
use std::collections::BTreeMap;

/// The highest lift number of a line.
const HIGHEST_NUMBER: u32 = 268_435_455;

/// The largest count of a line.
const LARGEST_COUNT: u32 = 104_857_600;

/// A measure is a count in hundreds.
const HUNDRED: u32 = 100;

/// The reply to a call that takes counts; the numbers are the document's.
#[derive(Clone, Copy, Debug, PartialEq, Eq)]
pub enum Intake {
    /// Refused by this number at this place.
    Refused { number: u32, place: usize },
    /// How many lines were taken.
    Taken { lines: usize },
}

/// Takes each line's count as its lift's new measure, also where that was not counted; a refusal leaves the sheet as it was.
pub fn take_counts(sheet: &mut [u32], text: &[u8]) -> Intake {
    match counted_sheet(sheet, text) {
        Ok((counted, lines)) => {
            sheet.copy_from_slice(&counted);
            Intake::Taken { lines }
        }
        Err((number, place)) => Intake::Refused { number, place },
    }
}

/// The sheet with the counts taken, and how many lines there are; refusals 1 to 6 and 16, then 14 and 15, then those of the result.
fn counted_sheet(sheet: &[u32], text: &[u8]) -> Result<(Vec<u32>, usize), Refusal> {
    let mut lifts = read_lifts(sheet)?;
    let lines = lines_of(text);
    take_lines(&mut lifts, &lines)?;
    let counted = write_sheet(&lifts);
    read_sheet(&counted)?;
    Ok((counted, lines.len()))
}

/// The lines of a text without their endings; behind the last ending there is no further, empty line.
fn lines_of(text: &[u8]) -> Vec<&[u8]> {
    let lines = text.split_inclusive(|&byte| byte == b'\n');
    lines.map(without_ending).collect()
}

/// A line without its LF or CR LF.
fn without_ending(line: &[u8]) -> &[u8] {
    match line.strip_suffix(b"\n") {
        Some(ended) => ended.strip_suffix(b"\r").unwrap_or(ended),
        None => line,
    }
}

/// Takes the counts line by line, each for a lift that no line named before; refusals 14 and 15, placed at the line from 1.
fn take_lines(lifts: &mut [SheetLift], lines: &[&[u8]]) -> Result<(), Refusal> {
    let unnamed = lifts.iter_mut().map(|lift| (lift.number, lift));
    let mut unnamed: BTreeMap<u32, &mut SheetLift> = unnamed.collect();
    for (line, place) in lines.iter().zip(1..) {
        let (number, count) = read_line(line).ok_or((14, place))?;
        let lift = unnamed.remove(&number).ok_or((15, place))?;
        lift.new_measure = count.div_ceil(HUNDRED);
    }
    Ok(())
}

/// The lift number and the count of a line, if it has the form.
fn read_line(line: &[u8]) -> Option<(u32, u32)> {
    let comma = line.iter().position(|&byte| byte == b',')?;
    let number = read_number(&line[..comma], HIGHEST_NUMBER)?;
    let count = read_number(&line[comma + 1..], LARGEST_COUNT)?;
    Some((number, count))
}

/// The number of one decimal digit or more, if it is at most the largest.
fn read_number(digits: &[u8], largest: u32) -> Option<u32> {
    if digits.is_empty() || !digits.iter().all(u8::is_ascii_digit) {
        return None;
    }
    // A number beyond 32 bits stays at the end of their range, which is above both of the largest.
    let number = digits.iter().fold(0_u32, |number, digit| {
        let digit = u32::from(digit - b'0');
        number.saturating_mul(10).saturating_add(digit)
    });
    (number <= largest).then_some(number)
}
