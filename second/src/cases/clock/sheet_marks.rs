//! 02 C-17: the mark of a settings sheet on its way from a load or a state that is put, through all that is listed, into the
//! reports.
//!
//! All numbers are worked out by hand.

mod kept_lists;
mod loads;
mod put_states;
mod refusals;
mod sheets;
mod statuses;
mod unlooked;

use crate::plan::Plan;
use crate::random::Random;
use crate::sheet_mark::{SheetMark, USUAL};

/// Both ends of all numbers, the mark beside the lowest, and one whose bytes are all different.
pub const MARKS: [SheetMark; 4] = [SheetMark(0), SheetMark(1), USUAL, SheetMark(u32::MAX)];

pub fn add(plan: &mut Plan, random: &mut Random) {
    sheets::add(plan, random);
    loads::add(plan, random);
    statuses::add(plan, random);
    kept_lists::add(plan, random);
    put_states::add(plan, random);
    unlooked::add(plan, random);
    refusals::add(plan, random);
}
