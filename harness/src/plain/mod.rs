//! What is timed beside the archive, written for speed: a bare pass over a sheet's words, the choice for a whole sheet and the taking of
//! counts.

mod bare;
mod counts;
mod panel;
mod round;
mod sheet;

pub use bare::read_words;
pub use counts::take_counts;
pub use panel::choose_panel;

use crate::reference::{self, LONGEST_SHEET};

/// A refusal's number and place.
pub type Refusal = (u32, usize);

/// The most lifts that are read before the end word tells how many there are.
const MOST_READ: usize = LONGEST_SHEET / 3;

/// The highest round, as an index, and how many a place can name.
const MOST_ROUNDS: usize = reference::MOST_ROUNDS as usize;
const ROUNDS: usize = 128;

/// How many low bits of a word are its payload, and of a place's payload its measure.
const PAYLOAD_BITS: u32 = 28;
const MEASURE_BITS: u32 = 21;

/// The bits of a word that are its payload, and its measure.
const PAYLOAD: u32 = (1 << PAYLOAD_BITS) - 1;
const MEASURE: u32 = (1 << MEASURE_BITS) - 1;
