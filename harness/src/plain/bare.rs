//! The bare pass over a sheet's words: the least that any program must do with a sheet. The plain calls read lift by lift instead, which is
//! faster.

use super::sheet::{fill_in, has_measure, place_of, END, HELD, LIFT, NEW_PLACE, OLD_PLACE};
use super::{Refusal, MEASURE, PAYLOAD, PAYLOAD_BITS};
use crate::reference::MOST_LIFTS;

/// What the words before a word tell.
struct Before {
    /// The last word's kind, 0 before the first.
    kind: u32,
    /// The last lift's number, and the payload of its old place.
    number: u32,
    old: u32,
    lifts: usize,
}

/// Reads the words one by one and keeps no more of them than the next needs; refusals 2 to 6, and 16.
pub fn read_words(sheet: &[u32]) -> Result<(), Refusal> {
    let mut before = Before {
        kind: 0,
        number: 0,
        old: 0,
        lifts: 0,
    };
    for (at, word) in sheet.iter().enumerate() {
        before.read(word >> PAYLOAD_BITS, word & PAYLOAD, at)?;
    }
    match before.kind {
        END => Ok(()),
        _ => Err((2, sheet.len())),
    }
}

impl Before {
    /// Reads the next word, which stands at a position.
    #[inline(always)]
    fn read(&mut self, kind: u32, payload: u32, at: usize) -> Result<(), Refusal> {
        match (self.kind, kind) {
            (LIFT, OLD_PLACE) => self.read_old_place(payload, at)?,
            (OLD_PLACE, NEW_PLACE) => self.read_new_place(payload, at)?,
            (0 | NEW_PLACE | HELD, LIFT) => self.read_number(payload, at)?,
            (NEW_PLACE, HELD) if payload > 0 || self.old & MEASURE == 0 => return Err((6, at)),
            (NEW_PLACE, HELD) => {}
            (0 | NEW_PLACE | HELD, END) => self.read_end(payload, at)?,
            _ => return Err((2, at)),
        }
        self.kind = kind;
        Ok(())
    }

    /// Reads a lift's number; refusal 3.
    #[inline(always)]
    fn read_number(&mut self, number: u32, at: usize) -> Result<(), Refusal> {
        if number <= self.number {
            return Err((3, at));
        }
        self.number = number;
        self.lifts += 1;
        Ok(())
    }

    /// Reads an old place; refusal 4.
    #[inline(always)]
    fn read_old_place(&mut self, payload: u32, at: usize) -> Result<(), Refusal> {
        self.old = payload;
        match has_measure(payload) {
            true => Ok(()),
            false => Err((4, at)),
        }
    }

    /// Reads a new place; refusals 4 and 16.
    #[inline(always)]
    fn read_new_place(&self, payload: u32, at: usize) -> Result<(), Refusal> {
        match has_measure(payload) {
            true => Ok(()),
            false => fill_in(place_of(payload), at, place_of(self.old)).map(|_| ()),
        }
    }

    /// Reads the end word; refusal 5.
    #[inline(always)]
    fn read_end(&self, payload: u32, at: usize) -> Result<(), Refusal> {
        let count = payload as usize;
        match count == self.lifts && count <= MOST_LIFTS {
            true => Ok(()),
            false => Err((5, at)),
        }
    }
}
