//! What a script says of a clock state but nobody looks at, and counts that are shown as they stand.

use crate::channel::Channel;
use crate::clock_history::{close_put, put, show, Demand};
use crate::clock_numbers::{ClockNumbers, ListNumbers, RowNumbers};
use crate::clock_scene::{fair_clock, list, open_at, row_on, wide_settings};
use crate::closing::Controls;
use crate::frame::HIGHEST_CYCLE;
use crate::plan::{Expected, Plan};
use crate::random::Random;
use crate::script::Command;
use crate::sheet_mark::SheetMark;
use crate::sync_list::{DEVIATIONS, PLACES};

const MOST: u8 = PLACES as u8;

/// Counts below, at and above the places of a list.
pub const COUNTS: [u8; 9] = [0, 1, 3, MOST - 1, MOST, MOST + 1, MOST + 2, 128, u8::MAX];

pub fn add(plan: &mut Plan, random: &mut Random) {
    for bit in 2..8 {
        add_seen(plan, bit);
    }
    for number in [0, 1, HIGHEST_CYCLE, HIGHEST_CYCLE + 1, u8::MAX] {
        add_behind_switches(plan, random, number);
    }
    for channel in Channel::BOTH {
        for strange in [1, DEVIATIONS.end() + 1, i32::MIN, i32::MAX] {
            add_deviation(plan, channel, strange);
        }
    }
    for count in COUNTS {
        add_counts(plan, random, count);
    }
}

/// A row with a bit that has no name, which changes nothing.
fn add_seen(plan: &mut Plan, bit: u8) {
    for channel in Channel::BOTH {
        let plain = row_on(6, channel, -14);
        let rows = list(&[RowNumbers { seen: plain.seen | 1 << bit, ..plain }]);
        let before = open_at(wide_settings(false), 3, [rows, rows]);
        put(plan, &before);
        show(plan, &before);
        let demand = Demand { offset: -14, ids: 1, ..Demand::default() };
        close_put(plan, &before, Controls::NONE, &demand, 0);
    }
}

/// Cycles behind a switch of 0 are shown as 0 and break nothing.
fn add_behind_switches(plan: &mut Plan, random: &mut Random, number: u8) {
    let fair = fair_clock(random);
    let closed = ClockNumbers { open: false, cycle: number, ..fair };
    put(plan, &closed);
    show(plan, &closed);
    plan.add(Command::OpenCycle(2), Expected::Accepted);
    let none_before = ClockNumbers { open: true, cycle: 1, closed: false, last: number, ..fair };
    put(plan, &none_before);
    show(plan, &none_before);
    plan.add(Command::CloseCycle(Controls::NONE), Expected::Accepted);
    // Nor is it the last closed cycle: the even list goes.
    let none_closed = ClockNumbers { open: false, closed: false, last: 0, ..fair };
    put(plan, &none_closed);
    plan.add(Command::OpenCycle(1), Expected::Accepted);
    let after = ClockNumbers { lists: Default::default(), open: true, cycle: 1, ..none_closed };
    show(plan, &after);
}

/// A number on the channel that isn't seen, whatever it is.
fn add_deviation(plan: &mut Plan, channel: Channel, strange: i32) {
    let mut plain = row_on(6, channel, 30);
    plain.deviations[usize::from(channel.other().number())] = strange;
    let before = open_at(wide_settings(false), 3, [list(&[plain]), list(&[plain])]);
    put(plan, &before);
    show(plan, &before);
    let demand = Demand { offset: 30, ids: 1, ..Demand::default() };
    close_put(plan, &before, Controls::NONE, &demand, 0);
}

/// All rows with something in them; those at and above the count are not listed.
fn add_counts(plan: &mut Plan, random: &mut Random, count: u8) {
    for place in [0, 1] {
        let mut numbers = fair_clock(random);
        let rows = [(); PLACES].map(|_| RowNumbers {
            id: random.below(0x1_0000) as u16,
            seen: random.below(256) as u8,
            deviations: [(); 2].map(|_| random.below(1 << 32) as u32 as i32),
            pair: [(); 2].map(|_| SheetMark::any(random)),
        });
        numbers.lists[place] = ListNumbers { count, rows };
        put(plan, &numbers);
        show(plan, &numbers);
    }
}
