//! Lists under a mark that are full, and even lists that are kept into an odd cycle with their mark.

use super::super::listed::TIMES_OF_01;
use super::MARKS;
use crate::channel::Channel::{A, B};
use crate::clock::Times;
use crate::clock_history::{close, load, measure, open, refuse_measure, show};
use crate::clock_numbers::ClockNumbers;
use crate::clock_scene::{closed, late_settings, list, open_at, row, row_on, sync_status};
use crate::plan::Plan;
use crate::random::Random;
use crate::refusal::Refusal;
use crate::settings::SYNC_ID_LIMIT;
use crate::sheet_mark::SheetMark;

/// A cycle, what comes in it later than the times of 01, and the line of its closing.
type Cycle = (u8, u32, &'static str);

const FEW: [Cycle; 2] = [(62, 0, "close 0 100 0 0 0 0 0 2"), (63, 9, "close 0 109 9 0 0 0 0 2")];
const MOST: [Cycle; 2] = [(62, 0, "close 0 100 0 0 0 0 0 15"), (63, 9, "close 0 109 9 0 0 0 0 15")];

pub(super) fn add(plan: &mut Plan, random: &mut Random) {
    for mark in MARKS {
        add_full(plan, random, mark, 2, FEW);
        add_full(plan, random, mark, 15, MOST);
        add_one_channel(plan, random, mark);
    }
}

/// As many IDs as the limit, each on both channels, and one more that is refused, in both cycles.
fn add_full(plan: &mut Plan, random: &mut Random, mark: SheetMark, limit: u16, cycles: [Cycle; 2]) {
    let settings = late_settings(0, [0, 0]).with_field(SYNC_ID_LIMIT, limit.into()).with_mark(mark);
    let mut held = ClockNumbers { settings, ..ClockNumbers::default() };
    load(plan, settings);
    for (place, (cycle, later, line)) in cycles.into_iter().enumerate() {
        held = ClockNumbers { open: true, cycle, ..held };
        open(plan, cycle);
        show(plan, &held);
        let deviation = 100 + later as i32;
        let times = Times { observed: TIMES_OF_01.observed + later, ..TIMES_OF_01 };
        for (channel, on_b) in [(A, None), (B, Some(deviation))] {
            for id in 1..=limit {
                measure(plan, &sync_status(random, channel, id, cycle), times, deviation.into());
                let listed = usize::from(id);
                held.lists[place].count = held.lists[place].count.max(id as u8);
                held.lists[place].rows[listed - 1] = row(id, Some(deviation), on_b);
                held = held.marked();
                if id == 1 || id == limit {
                    show(plan, &held);
                }
            }
            refuse_measure(plan, &held, &sync_status(random, channel, limit + 1, cycle), Refusal::ListFull);
        }
        close(plan, mark, line);
        let rate = if cycle % 2 == 1 { 9 } else { 0 };
        held = closed(&held, rate);
        show(plan, &held);
    }
}

/// An ID on A and another one on B. In the odd cycle they come the other way round, 4 and 8 later.
fn add_one_channel(plan: &mut Plan, random: &mut Random, mark: SheetMark) {
    let settings = late_settings(0, [0, 0]).with_mark(mark);
    let even = list(&[row_on(8, A, 100), row_on(9, B, 100)]);
    let odd = list(&[row_on(9, B, 104), row_on(8, A, 108)]);
    load(plan, settings);
    open(plan, 0);
    measure(plan, &sync_status(random, A, 8, 0), TIMES_OF_01, 100);
    measure(plan, &sync_status(random, B, 9, 0), TIMES_OF_01, 100);
    show(plan, &open_at(settings, 0, [even, list(&[])]));
    close(plan, mark, "close 0 100 0 0 0 0 0 2");
    let held = closed(&open_at(settings, 0, [even, list(&[])]), 0);
    show(plan, &held);
    open(plan, 1);
    show(plan, &ClockNumbers { open: true, cycle: 1, ..held });
    measure(plan, &sync_status(random, B, 9, 1), Times { observed: 1_004, action_point: 900 }, 104);
    measure(plan, &sync_status(random, A, 8, 1), Times { observed: 1_008, action_point: 900 }, 108);
    show(plan, &ClockNumbers { last: 0, closed: true, ..open_at(settings, 1, [even, odd]) });
    close(plan, mark, "close 0 106 6 0 0 0 0 2");
    show(plan, &closed(&open_at(settings, 1, [even, odd]), 6));
}
