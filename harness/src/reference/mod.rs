//! The reference, written from the scope and the requests alone.

mod counts;
mod draw;
mod next;
mod panel;
mod round;
mod sheet;

pub use counts::{take_counts, Intake};
pub use draw::draw;
pub use next::choose_next;
pub use panel::{choose_panel, new_rounds, report, NewRound, Reply};
pub use round::{choose, choose_by, Choice, Lift, Outcome, Round};
pub use sheet::{check, read_lifts, read_sheet, write_sheet, Sheet, SheetLift, Verdict};
pub use sheet::{donors, new_sum, old_sum};
pub use sheet::{LARGEST_SUM, LONGEST_SHEET, MOST_LIFTS, MOST_ROUNDS, NOT_COUNTED};
