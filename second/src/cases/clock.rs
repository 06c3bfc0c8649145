//! The listed cases of the clock, subject by subject.

pub(super) mod between;
mod both_checksums;
mod controls;
mod cycles;
mod damping;
mod limits;
mod listed;
mod listed_terms;
mod loading;
mod measuring;
mod midpoints;
mod pairs;
mod refusals;
mod second_frames;
mod sheet_marks;
mod soundness;
mod sync_limits;
mod two_cycles;
mod unlooked;

use crate::plan::Plan;
use crate::random::Random;

pub use listed::{CORRECTIONS, DAMPED_OF_01, MIDPOINTS, TIMES_OF_01};
pub use listed_terms::CLUSTER_LIMITS;
pub use sheet_marks::MARKS;
pub use unlooked::COUNTS;

pub fn add(plan: &mut Plan, random: &mut Random) {
    // First, as it needs the state of the start.
    loading::add(plan, random);
    listed::add(plan, random);
    listed_terms::add(plan, random);
    cycles::add(plan, random);
    measuring::add(plan, random);
    sync_limits::add(plan, random);
    midpoints::add(plan, random);
    limits::add(plan);
    damping::add(plan);
    controls::add(plan);
    pairs::add(plan);
    two_cycles::add(plan, random);
    refusals::add(plan, random);
    soundness::add(plan, random);
    unlooked::add(plan, random);
    between::add(plan, random);
    second_frames::add(plan, random);
    sheet_marks::add(plan, random);
    both_checksums::add(plan, random);
}
