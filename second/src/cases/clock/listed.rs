//! The values of 01 "Numbers to check against" that concern the clock.

use crate::channel::Channel;
use crate::clock::{delay_on, Times};
use crate::clock_history::{close, close_put, measure, open, put, Demand};
use crate::clock_numbers::RowNumbers;
use crate::clock_scene::{list, open_at, row_on, sync_status, wide_settings};
use crate::closing::Controls;
use crate::plan::Plan;
use crate::random::Random;
use crate::settings::{Settings, DECODING_CORRECTION, DRIFT_DAMPING, EXTERNAL_RATE_UNIT, RATE_LIMIT};
use crate::sheet_mark::USUAL;

/// 01's midpoints with their values.
pub const MIDPOINTS: [(&[i32], i64); 6] = [
    (&[15, 13, 6, -3, -5], 5),
    (&[8, 9], 8),
    (&[8, -25], -8),
    (&[-7, 100, -10], -7),
    (&[1, 2, 3, 4, 5, 6, 7], 4),
    (&[1, 2, 3, 4, 5, 6, 7, 8], 4),
];

pub fn add(plan: &mut Plan, random: &mut Random) {
    for (values, midpoint) in MIDPOINTS {
        for channel in Channel::BOTH {
            add_as_offset(plan, channel, values, midpoint);
            add_as_rate(plan, channel, values, midpoint);
        }
    }
    for channel in Channel::BOTH {
        add_deviations(plan, random, channel);
        add_rates(plan, random, channel);
    }
}

/// One row for each value, of IDs from 1 on.
pub(super) fn rows(channel: Channel, values: &[i32]) -> Vec<RowNumbers> {
    let numbered = values.iter().enumerate();
    numbered.map(|(place, value)| row_on(place as u16 + 1, channel, *value)).collect()
}

/// In an even cycle, and in an odd one that has no rate.
fn add_as_offset(plan: &mut Plan, channel: Channel, values: &[i32], midpoint: i64) {
    for cycle in [20, 21] {
        let mut lists = [list(&[]), list(&[])];
        lists[usize::from(cycle % 2)] = list(&rows(channel, values));
        let before = open_at(wide_settings(false), cycle, lists);
        let rate_missing = cycle == 21;
        let demand = Demand { offset: midpoint, rate_missing, ids: values.len(), ..Demand::default() };
        close_put(plan, &before, Controls::NONE, &demand, 0);
    }
}

/// Even deviations of 0, so that the odd ones are the differences and their midpoint is both terms.
fn add_as_rate(plan: &mut Plan, channel: Channel, values: &[i32], midpoint: i64) {
    let zeros = vec![0; values.len()];
    let lists = [list(&rows(channel, &zeros)), list(&rows(channel, values))];
    let before = open_at(wide_settings(false), 21, lists);
    let demand = Demand { offset: midpoint, rate: midpoint, ids: values.len(), ..Demand::default() };
    close_put(plan, &before, Controls::NONE, &demand, midpoint);
}

/// Time 1,000, action point 900.
pub const TIMES_OF_01: Times = Times { observed: 1_000, action_point: 900 };

/// Correction, delay and deviation at these times: 01's two, and the corrections of 002 Table B-37 with 01's delay.
pub const CORRECTIONS: [(u32, u32, i32); 9] = [
    (56, 40, 4),
    (56, 44, 0),
    (24, 40, 36),
    (12, 40, 48),
    (56, 40, 4),
    (80, 40, -20),
    (40, 40, 20),
    (136, 40, -76),
    (68, 40, -8),
];

/// The other channel's delay doesn't count.
fn add_deviations(plan: &mut Plan, random: &mut Random, channel: Channel) {
    for (correction, delay, deviation) in &CORRECTIONS[..2] {
        let settings = wide_settings(false).with_field(DECODING_CORRECTION, *correction);
        let settings = settings.with_field(delay_on(channel), *delay).with_field(delay_on(channel.other()), 7);
        put(plan, &open_at(settings, 9, Default::default()));
        measure(plan, &sync_status(random, channel, 3, 9), TIMES_OF_01, (*deviation).into());
    }
}

fn damped_settings() -> Settings {
    let settings = wide_settings(false).with_field(DRIFT_DAMPING, 2).with_field(RATE_LIMIT, 10);
    settings.with_field(EXTERNAL_RATE_UNIT, 3)
}

/// The sum of midpoint and stored rate in 01's three examples, and d.
pub const DAMPED_OF_01: [(i64, i64); 3] = [(15, 2), (10, 2), (1, 2)];

/// Stored 5, midpoint 10, d 2, limit 10: stored 10, flagged; control -1, unit 3 reports 7. Next midpoint 0: stored 8.
/// Stored 1, midpoint 0, d 2: 0.
fn add_rates(plan: &mut Plan, random: &mut Random, channel: Channel) {
    let mut before = open_at(damped_settings(), 21, [list(&rows(channel, &[20])), list(&rows(channel, &[30]))]);
    before.rate = 5;
    let controls = Controls { offset: 0, rate: -1 };
    let demand = Demand { offset: 30, rate: 7, rate_limited: true, ids: 1, ..Demand::default() };
    close_put(plan, &before, controls, &demand, 10);
    let next = [(22, "close 0 -6 10 0 0 0 0 1"), (23, "close 0 -6 8 0 0 0 0 1")];
    for (cycle, line) in next {
        open(plan, cycle);
        let times = Times { observed: 60, action_point: 66 };
        measure(plan, &sync_status(random, channel, 1, cycle), times, -6);
        close(plan, USUAL, line);
    }
    let mut before = open_at(damped_settings(), 63, [list(&rows(channel, &[-4])), list(&rows(channel, &[-4]))]);
    before.rate = 1;
    let demand = Demand { offset: -4, ids: 1, ..Demand::default() };
    close_put(plan, &before, Controls::NONE, &demand, 0);
}
