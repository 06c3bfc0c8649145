//! What a script says of a reader but nobody looks at: unnamed bits of the samples, and numbers that a phase doesn't have.

use super::{hear, put, show};
use crate::channel::Channel;
use crate::plan::Plan;
use crate::reader_numbers::{ReaderNumbers, BYTE, BYTE_START_HIGH, END_LOW, LAST_PHASE};

pub fn add(plan: &mut Plan) {
    for bit in 4..8 {
        for samples in [0, 5, 15] {
            let numbers = ReaderNumbers { samples: samples | 1 << bit, ..sound(0) };
            add_shown(plan, &numbers);
        }
        // Samples that have not come are low, whatever the bits above say.
        let fresh = ReaderNumbers { seen: 0, samples: 1 << bit, voted: false, counter: 1, timer: 0, ..sound(0) };
        add_shown(plan, &fresh);
    }
    for phase in 0..=LAST_PHASE {
        for (number, value) in [(1, 255), (255, 0), (255, 255)] {
            let numbers = ReaderNumbers { number, value, ..sound(phase) };
            // Those of the phases that have them are out of range here.
            if numbers.looked_at().reader().is_sound() {
                add_shown(plan, &numbers);
            }
        }
    }
}

fn sound(phase: u8) -> ReaderNumbers {
    let count = if (BYTE_START_HIGH..=END_LOW).contains(&phase) { 9 } else { 0 };
    let number = if phase == BYTE { 0 } else { 1 };
    let numbers =
        ReaderNumbers { channel: Channel::B, seen: 4, voted: true, counter: 7, timer: 3, ..Default::default() };
    ReaderNumbers { phase, number, count, ..numbers }
}

/// Shown without it, taken without it, and forgotten.
fn add_shown(plan: &mut Plan, numbers: &ReaderNumbers) {
    put(plan, numbers);
    show(plan, numbers);
    hear(plan, &[], &[]);
    show(plan, numbers);
}
