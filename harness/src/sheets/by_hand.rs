//! Sheets written by hand.

use crate::reference::SheetLift;

/// A round and a measure.
pub type Place = (u32, u32);

/// The place of a newcomer or a withdrawn lift.
pub const NONE: Place = (0, 0);

/// The document's sheet: lifts 11, 12 (held) and 13 of one round.
pub const EXAMPLE: [u32; 11] = [
    0x1000_000B,
    0x2020_0002,
    0x3020_0004,
    0x1000_000C,
    0x2020_0003,
    0x3020_0001,
    0x4000_0000,
    0x1000_000D,
    0x2020_0005,
    0x3020_0005,
    0xF000_0003,
];

/// A lift without a number.
pub fn lift(old: Place, new: Place) -> SheetLift {
    SheetLift {
        number: 0,
        old_round: old.0,
        old_measure: old.1,
        new_round: new.0,
        new_measure: new.1,
        held: false,
    }
}

/// A held lift without a number.
pub fn held(old: Place, new: Place) -> SheetLift {
    SheetLift {
        held: true,
        ..lift(old, new)
    }
}

/// The lifts, numbered in order from the first number on.
pub fn numbered(lifts: &[SheetLift], first: u32) -> Vec<SheetLift> {
    let numbered = lifts.iter().zip(first..);
    numbered
        .map(|(&lift, number)| SheetLift { number, ..lift })
        .collect()
}

/// The lifts of the longest sheet, numbered from 1 up: 4,096 in 100 rounds of one donor each.
pub fn longest() -> Vec<SheetLift> {
    let place = |number: u32| (number % 100 + 1, 25_000);
    let lifts = (0..4_096).map(|number| lift(place(number), place(number + 7)));
    let mut lifts: Vec<SheetLift> = lifts.collect();
    for lift in &mut lifts[3_000..3_100] {
        lift.held = true;
    }
    numbered(&lifts, 1)
}
