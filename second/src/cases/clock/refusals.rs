//! All causes of the clock's entries alone and together; the first in 01's order is the answer and the state stays.

use crate::clock_faults::{faulty_close, faulty_measure, faulty_open, Faulty};
use crate::clock_history::{put, show};
use crate::faults::selections;
use crate::history;
use crate::plan::{Expected, Plan};
use crate::random::Random;
use crate::refusal::{Refusal, CLOSE_CYCLE_ORDER, MEASURE_ORDER, OPEN_CYCLE_ORDER};
use crate::script::Command;

const ROUNDS: usize = 4;

pub fn add(plan: &mut Plan, random: &mut Random) {
    for round in 0..ROUNDS {
        for faults in selections(&OPEN_CYCLE_ORDER) {
            add_faulty(plan, &faulty_open(random, &faults), &faults);
        }
        for faults in selections(&CLOSE_CYCLE_ORDER) {
            add_faulty(plan, &faulty_close(random, &faults), &faults);
        }
        if round % 2 == 0 {
            add_measures(plan, random);
        }
    }
}

/// No ID is listed and at the same time not listed.
fn add_measures(plan: &mut Plan, random: &mut Random) {
    for faults in selections(&MEASURE_ORDER) {
        if faults.contains(&Refusal::MeasuredAlready) && faults.contains(&Refusal::ListFull) {
            continue;
        }
        add_faulty(plan, &faulty_measure(random, &faults), &faults);
    }
}

fn add_faulty(plan: &mut Plan, faulty: &Faulty, faults: &[Refusal]) {
    put(plan, &faulty.clock);
    if let Some(status) = &faulty.status {
        history::put(plan, status);
    }
    plan.add_faulty(faulty.command.clone(), faults);
    if faults.is_empty() {
        return plan.add(Command::Show, Expected::Anything);
    }
    show(plan, &faulty.clock);
}
