//! The taking of counts.

use super::sheet::{check_rounds, place_of, read_sheet, Round, Rounds};
use super::{Refusal, MEASURE, MOST_READ, PAYLOAD, ROUNDS};
use crate::reference::{Intake, NOT_COUNTED};

/// The measure of a lift that has no line.
const NO_LINE: u32 = u32::MAX;

/// The lifts of a sheet: each one's number, the position of its new place, and the measure that its line gives.
struct Lifts {
    len: usize,
    numbers: [u32; MOST_READ],
    positions: [u16; MOST_READ],
    measures: [u32; MOST_READ],
}

/// Takes each line's count as its lift's new measure; a refusal leaves the sheet as it was.
pub fn take_counts(sheet: &mut [u32], text: &[u8]) -> Intake {
    let mut lifts = Lifts {
        len: 0,
        numbers: [0; MOST_READ],
        positions: [0; MOST_READ],
        measures: [NO_LINE; MOST_READ],
    };
    match read(sheet, text, &mut lifts) {
        Ok(lines) => {
            write_measures(sheet, &lifts);
            Intake::Taken { lines }
        }
        Err((number, place)) => Intake::Refused { number, place },
    }
}

/// Reads sheet and text, and checks the result; how many lines there are.
fn read(sheet: &[u32], text: &[u8], lifts: &mut Lifts) -> Result<usize, Refusal> {
    let mut rounds = [Round::default(); ROUNDS];
    read_sheet(sheet, &mut rounds, |lift| {
        lifts.add(lift.number, lift.position)
    })?;
    let lines = read_text(text, lifts)?;
    change_sums(sheet, lifts, &mut rounds)?;
    check_rounds(&rounds)?;
    Ok(lines)
}

/// Reads the lines and keeps their measures; refusals 14 and 15.
fn read_text(text: &[u8], lifts: &mut Lifts) -> Result<usize, Refusal> {
    let numbers = &lifts.numbers[..lifts.len];
    let measures = &mut lifts.measures[..lifts.len];
    let (mut rest, mut lines) = (text, 0);
    while !rest.is_empty() {
        lines += 1;
        let (number, count, behind) = read_line(rest).ok_or((14, lines))?;
        match numbers.binary_search(&number) {
            Ok(place) if measures[place] == NO_LINE => measures[place] = count.div_ceil(100),
            _ => return Err((15, lines)),
        }
        rest = behind;
    }
    Ok(lines)
}

/// The first line's lift number and count, and the text behind its ending.
#[inline]
fn read_line(text: &[u8]) -> Option<(u32, u32, &[u8])> {
    let (number, behind) = read_number(text, 268_435_455)?;
    let behind = behind.strip_prefix(b",")?;
    let (count, behind) = read_number(behind, 104_857_600)?;
    match behind {
        [] => Some((number, count, behind)),
        [b'\n', behind @ ..] | [b'\r', b'\n', behind @ ..] => Some((number, count, behind)),
        _ => None,
    }
}

/// The number of the digits that a text begins with, and the text behind them.
#[inline]
fn read_number(text: &[u8], largest: u32) -> Option<(u32, &[u8])> {
    let (mut value, mut len) = (0, 0);
    for byte in text {
        let digit = byte.wrapping_sub(b'0');
        if digit > 9 {
            break;
        }
        value = (10 * value + u32::from(digit)).min(largest + 1);
        len += 1;
    }
    (len > 0 && value <= largest).then(|| (value, &text[len..]))
}

/// Puts the measures of the lines into the new sums; refusal 4 for a withdrawn lift.
fn change_sums(sheet: &[u32], lifts: &Lifts, rounds: &mut Rounds) -> Result<(), Refusal> {
    for (position, measure) in lifts.counted() {
        let (round, written) = place_of(sheet[position] & PAYLOAD);
        if round == 0 && measure > 0 {
            return Err((4, position));
        }
        let before = match written {
            NOT_COUNTED => sheet[position - 1] & MEASURE,
            _ => written,
        };
        rounds[round].new.change(before, measure);
    }
    Ok(())
}

impl Lifts {
    /// Adds a lift with the position of its new place.
    #[inline]
    fn add(&mut self, number: u32, position: usize) {
        self.numbers[self.len] = number;
        self.positions[self.len] = position as u16;
        self.len += 1;
    }

    /// The position and the measure of each lift that has a line, in the order of the sheet.
    #[inline]
    fn counted(&self) -> impl Iterator<Item = (usize, u32)> + '_ {
        let measures = &self.measures[..self.len];
        let lifts = self.positions[..self.len].iter().zip(measures);
        let lifts = lifts.map(|(&position, &measure)| (position.into(), measure));
        lifts.filter(|&(_, measure)| measure != NO_LINE)
    }
}

/// Writes the measures of the lines into the new places.
fn write_measures(sheet: &mut [u32], lifts: &Lifts) {
    for (position, measure) in lifts.counted() {
        sheet[position] = sheet[position] & !MEASURE | measure;
    }
}
