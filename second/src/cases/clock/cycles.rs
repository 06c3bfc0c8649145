//! Opening a cycle: which lists are emptied, gaps between cycles, and long runs of them.

use crate::channel::Channel;
use crate::clock::Times;
use crate::clock_history::{close, load, measure, open, put, refuse, show};
use crate::clock_numbers::{ClockNumbers, ListNumbers};
use crate::clock_scene::{fair_clock, sync_status, wide_settings, Last};
use crate::frame::HIGHEST_CYCLE;
use crate::plan::{Expected, Plan};
use crate::random::Random;
use crate::refusal::Refusal;
use crate::script::Command;
use crate::sheet_mark::USUAL;

pub fn add(plan: &mut Plan, random: &mut Random) {
    for cycle in 0..=HIGHEST_CYCLE {
        add_opened(plan, random, cycle, Last::Before);
        add_opened(plan, random, cycle, OTHERS[usize::from(cycle / 2) % OTHERS.len()]);
    }
    for cycle in [HIGHEST_CYCLE + 1, HIGHEST_CYCLE + 2, 127, 128, u8::MAX] {
        add_wrong(plan, random, cycle);
    }
    for story in STORIES {
        add_story(plan, random, story);
    }
}

/// Refused whether the lowest bits alone would be a cycle or not, and the lists stay.
fn add_wrong(plan: &mut Plan, random: &mut Random, cycle: u8) {
    let held = ClockNumbers { open: false, ..fair_clock(random) };
    put(plan, &held);
    refuse(plan, &held, Command::OpenCycle(cycle), Refusal::Cycle);
}

/// In turn beside the cycle before, for odd and even cycles alike.
const OTHERS: [Last; 3] = [Last::None, Last::Same, Last::Other];

fn last_cycle(random: &mut Random, cycle: u8, last: Last) -> u8 {
    match last {
        Last::None | Last::Before => (cycle + HIGHEST_CYCLE) % (HIGHEST_CYCLE + 1),
        Last::Same => cycle,
        Last::Other => (cycle + random.between(1, usize::from(HIGHEST_CYCLE) - 1) as u8) % (HIGHEST_CYCLE + 1),
    }
}

/// Both lists hold something. The odd one goes in any case; the even one stays behind cycle c - 1 if c is odd.
fn add_opened(plan: &mut Plan, random: &mut Random, cycle: u8, last: Last) {
    let mut before = fair_clock(random);
    before.open = false;
    before.closed = last != Last::None;
    before.last = last_cycle(random, cycle, last);
    before.lists.iter_mut().for_each(|list| list.count = list.count.max(1));
    let before = before.marked();
    put(plan, &before);
    open(plan, cycle);
    let even_stays = cycle % 2 == 1 && last == Last::Before;
    let even = if even_stays { before.lists[0] } else { ListNumbers::default() };
    let after = ClockNumbers { open: true, cycle, lists: [even, ListNumbers::default()], ..before };
    show(plan, &after);
}

/// A cycle, the deviation of the one ID that is measured in it, and the line of its closing.
type Cycle = (u8, i64, &'static str);

/// Runs of cycles from a load on; where the even cycle before is missing there is no rate.
const STORIES: [&[Cycle]; 10] = [
    &[(0, 10, "close 0 10 0 0 0 0 0 1"), (1, 14, "close 0 14 4 0 0 0 0 1"), (2, 9, "close 0 9 4 0 0 0 0 1")],
    &[(1, 10, "close 0 10 0 0 1 0 0 1"), (3, 14, "close 0 14 0 0 1 0 0 1"), (5, 0, "close 0 0 0 0 1 0 0 1")],
    &[(4, 10, "close 0 10 0 0 0 0 0 1"), (7, 14, "close 0 14 0 0 1 0 0 1"), (5, 3, "close 0 3 0 0 1 0 0 1")],
    &[(4, 10, "close 0 10 0 0 0 0 0 1"), (5, 4, "close 0 4 -6 0 0 0 0 1"), (5, 7, "close 0 7 -6 0 1 0 0 1")],
    &[(62, 1, "close 0 1 0 0 0 0 0 1"), (63, 8, "close 0 8 7 0 0 0 0 1"), (0, 2, "close 0 2 7 0 0 0 0 1")],
    &[(63, 1, "close 0 1 0 0 1 0 0 1"), (0, 8, "close 0 8 0 0 0 0 0 1"), (1, 2, "close 0 2 -6 0 0 0 0 1")],
    &[(6, 5, "close 0 5 0 0 0 0 0 1"), (8, 1, "close 0 1 0 0 0 0 0 1"), (7, 9, "close 0 9 0 0 1 0 0 1")],
    // An even cycle behind an odd one before which none was closed, or another, or the same.
    &[(9, 4, "close 0 4 0 0 1 0 0 1"), (10, 6, "close 0 6 0 0 0 0 0 1"), (11, 1, "close 0 1 -5 0 0 0 0 1")],
    &[
        (4, 10, "close 0 10 0 0 0 0 0 1"),
        (7, 14, "close 0 14 0 0 1 0 0 1"),
        (8, 2, "close 0 2 0 0 0 0 0 1"),
        (9, 5, "close 0 5 3 0 0 0 0 1"),
    ],
    &[
        (4, 10, "close 0 10 0 0 0 0 0 1"),
        (5, 4, "close 0 4 -6 0 0 0 0 1"),
        (5, 7, "close 0 7 -6 0 1 0 0 1"),
        (6, 1, "close 0 1 -6 0 0 0 0 1"),
        (7, 3, "close 0 3 -4 0 0 0 0 1"),
    ],
];

/// On both channels.
fn add_story(plan: &mut Plan, random: &mut Random, story: &[Cycle]) {
    for channel in Channel::BOTH {
        load(plan, wide_settings(false));
        for (cycle, deviation, line) in story {
            open(plan, *cycle);
            let times = Times { observed: 500 + *deviation as u32, action_point: 500 };
            measure(plan, &sync_status(random, channel, 12, *cycle), times, *deviation);
            plan.add(Command::Show, Expected::Anything);
            close(plan, USUAL, line);
            plan.add(Command::Show, Expected::Anything);
        }
    }
}
