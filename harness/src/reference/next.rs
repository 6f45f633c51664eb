//! The whole choice for a sheet, with next quarter's sheet written.

use super::panel::{check_lent, Pairs};
use super::sheet::Refusal;
use super::{new_rounds, read_sheet, write_sheet, Reply, Sheet, SheetLift, NOT_COUNTED};
use std::collections::BTreeSet;

/// Chooses for all new rounds with words read from `start` on; writes a pair for each to `out` and next quarter's sheet to `next`.
pub fn choose_next(
    sheet: &[u32],
    words: &[u64],
    start: usize,
    out: &mut [u32],
    next: &mut [u32],
) -> Reply {
    match choose_pairs_and_sheet(sheet, words, start, [out.len(), next.len()]) {
        Ok((pairs, sheet)) => {
            next[..sheet.len()].copy_from_slice(&sheet);
            pairs.write(out)
        }
        Err((number, place)) => Reply::Refused { number, place },
    }
}

/// The pairs of a sheet's new rounds, and next quarter's sheet; refusals 1 to 12 and 16, then 17, then 13.
fn choose_pairs_and_sheet(
    sheet: &[u32],
    words: &[u64],
    start: usize,
    [out_len, next_len]: [usize; 2],
) -> Result<(Pairs, Vec<u32>), Refusal> {
    let sheet = read_sheet(sheet)?;
    let rounds = new_rounds(&sheet);
    check_lent(&rounds, words, start, out_len)?;
    let needed = words_needed(&sheet);
    if next_len < needed {
        return Err((17, needed));
    }
    let pairs = Pairs::choose(&rounds, words, start)?;
    let next = next_lifts(&sheet.lifts, &pairs.lift_numbers());
    Ok((pairs, write_sheet(&next)))
}

/// How many words next quarter's sheet has: three for each lift that is not withdrawn, one for each lift chosen, and the end.
fn words_needed(sheet: &Sheet) -> usize {
    let lifts = staying(&sheet.lifts).count();
    3 * lifts + sheet.new_rounds.len() + 1
}

/// The lifts that are not withdrawn.
fn staying(lifts: &[SheetLift]) -> impl Iterator<Item = &SheetLift> {
    lifts.iter().filter(|lift| lift.new_round > 0)
}

/// Next quarter's lifts: each has its new place as the old one too, was not counted yet, and is held if it was chosen.
fn next_lifts(lifts: &[SheetLift], chosen: &BTreeSet<u32>) -> Vec<SheetLift> {
    let next = staying(lifts).map(|lift| SheetLift {
        number: lift.number,
        old_round: lift.new_round,
        old_measure: lift.filled_measure(),
        new_round: lift.new_round,
        new_measure: NOT_COUNTED,
        held: chosen.contains(&lift.number),
    });
    next.collect()
}
