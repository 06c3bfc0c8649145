//! 02 C-12: a counter that runs over two cycles. Its times on both sides of the new limit, cycles that are measured with it,
//! and both ends of the new range.
//!
//! All numbers are worked out by hand: none of them follows from the limit that they are about.

mod far_apart;

use crate::channel::Channel::{self, A, B};
use crate::clock::Times;
use crate::clock_history::{close, load, measure, open, put, refuse, show};
use crate::clock_numbers::{ClockNumbers, RowNumbers};
use crate::clock_scene::{closed, late_settings, list, open_at, row, sync_status};
use crate::history;
use crate::plan::Plan;
use crate::random::Random;
use crate::refusal::Refusal;
use crate::script::Command;
use crate::settings::{Settings, DRIFT_DAMPING};

/// The ends of the range of deviations.
const LOWEST: i32 = -2_560_510;
const HIGHEST: i32 = 2_560_000;

/// An ID that is measured on a channel, its observed time and action point, and its deviation.
type Measured = (u16, Channel, [u32; 2], i32);

/// A cycle, what is measured in it, the line of its closing, and the rate that is stored then.
type Cycle<'a> = (u8, &'a [Measured], &'a str, i32);

pub fn add(plan: &mut Plan, random: &mut Random) {
    add_times(plan, random, A, 6, "close 0 0 0 0 0 0 0 14");
    add_times(plan, random, B, 7, "close 0 0 0 0 1 0 0 14");
    add_running_on(plan, random);
    for channel in Channel::BOTH {
        add_across(plan, random, channel);
    }
    for channels in [&[A][..], &[B], &[A, B]] {
        add_ends(plan, random, channels);
        add_whole_range(plan, random, channels);
    }
    add_midpoints(plan, random);
    add_half_sums(plan, random);
    add_own_zero(plan, random);
    far_apart::add(plan);
}

fn times([observed, action_point]: [u32; 2]) -> Times {
    Times { observed, action_point }
}

/// 1,280,000 is no limit any more: each number up to 2,560,000, beside 0 and beside one in the middle, and the deviation
/// without correction and delay.
const TAKEN: [([u32; 2], i32); 14] = [
    ([1_280_000, 0], 1_280_000),
    ([1_280_001, 0], 1_280_001),
    ([2_559_999, 0], 2_559_999),
    ([2_560_000, 0], 2_560_000),
    ([0, 1_280_000], -1_280_000),
    ([0, 1_280_001], -1_280_001),
    ([0, 2_559_999], -2_559_999),
    ([0, 2_560_000], -2_560_000),
    ([1_280_000, 1_300_000], -20_000),
    ([1_280_001, 1_300_000], -19_999),
    ([2_560_000, 1_300_000], 1_260_000),
    ([1_300_000, 1_280_000], 20_000),
    ([1_300_000, 1_280_001], 19_999),
    ([1_300_000, 2_560_000], -1_260_000),
];

/// Each number above 2,560,000, beside 0, one in the middle and the highest.
const REFUSED: [[u32; 2]; 6] = [
    [2_560_001, 0],
    [2_560_001, 1_300_000],
    [2_560_001, 2_560_000],
    [0, 2_560_001],
    [1_300_000, 2_560_001],
    [2_560_000, 2_560_001],
];

/// An ID for each two times that are taken, and one more for all that are not. Of the 14 values two go at each end; left
/// are those from -1,280,001 to 1,280,001, whose sum is 0.
fn add_times(plan: &mut Plan, random: &mut Random, channel: Channel, cycle: u8, line: &str) {
    let settings = late_settings(0, [0, 0]);
    let mut held = open_at(settings, cycle, Default::default());
    let mut measured: Vec<Measured> = Vec::new();
    load(plan, settings);
    open(plan, cycle);
    for (id, (given, deviation)) in (1..).zip(TAKEN) {
        measure(plan, &sync_status(random, channel, id, cycle), times(given), deviation.into());
        measured.push((id, channel, given, deviation));
        held = with_measured(&held, cycle, &measured);
        show(plan, &held);
    }
    history::put(plan, &sync_status(random, channel, 15, cycle));
    for given in REFUSED {
        refuse(plan, &held, Command::Measure(times(given)), Refusal::Time);
    }
    close(plan, settings.mark, line);
    show(plan, &closed(&held, 0));
}

/// The state with this cycle open and a row for each ID that was measured. The cycle comes right behind the one before, so
/// that an even list is still there in an odd one.
fn with_measured(before: &ClockNumbers, cycle: u8, measured: &[Measured]) -> ClockNumbers {
    let mut rows: Vec<RowNumbers> = Vec::new();
    for (id, channel, _, deviation) in measured {
        if rows.last().map(|last| last.id) != Some(*id) {
            rows.push(row(*id, None, None));
        }
        let last = rows.last_mut().expect("the row of this ID is there");
        last.seen |= 1 << channel.number();
        last.deviations[usize::from(channel.number())] = *deviation;
    }
    let lists = if cycle % 2 == 0 { [list(&rows), list(&[])] } else { [before.lists[0], list(&rows)] };
    ClockNumbers { open: true, cycle, lists, ..*before }
}

/// Cycles from a load on.
fn play(plan: &mut Plan, random: &mut Random, settings: Settings, cycles: &[Cycle]) {
    load(plan, settings);
    play_on(plan, random, ClockNumbers { settings, ..ClockNumbers::default() }, cycles);
}

/// Cycles from a state on in which none is open.
fn play_on(plan: &mut Plan, random: &mut Random, before: ClockNumbers, cycles: &[Cycle]) {
    let mut held = before;
    for (cycle, measured, line, stored) in cycles {
        open(plan, *cycle);
        for (id, channel, given, deviation) in *measured {
            measure(plan, &sync_status(random, *channel, *id, *cycle), times(*given), (*deviation).into());
        }
        close(plan, held.settings.mark, line);
        held = closed(&with_measured(&held, *cycle, measured), *stored);
        show(plan, &held);
    }
}

/// Cycles of 1,280,000 microticks, with correction 56 and delays 40 and 44: the times of an odd cycle are later by as much,
/// and nothing is taken off them. The counter starts anew with each even cycle.
fn add_running_on(plan: &mut Plan, random: &mut Random) {
    let cycles: [Cycle; 4] = [
        (
            8,
            &[(1, A, [600_112, 600_000], 16), (1, B, [600_114, 600_000], 14), (2, B, [612_600, 612_500], 0)],
            // Offset: 14 and 0.
            "close 0 7 0 0 0 0 0 2",
            0,
        ),
        (
            9,
            &[
                (1, A, [1_880_117, 1_880_000], 21),
                (1, B, [1_880_122, 1_880_000], 22),
                (2, B, [1_892_611, 1_892_500], 11),
            ],
            // Offset: 21 and 11. Rate: half of 5 + 8, which is 6, and 11.
            "close 0 16 8 0 0 0 0 2",
            8,
        ),
        (
            10,
            &[(1, A, [600_112, 600_000], 16), (1, B, [600_105, 600_000], 5), (2, B, [612_590, 612_500], -10)],
            // Offset: 5 and -10.
            "close 0 -2 8 0 0 0 0 2",
            8,
        ),
        (
            11,
            &[
                (1, A, [1_880_109, 1_880_000], 13),
                (1, B, [1_880_099, 1_880_000], -1),
                (2, B, [1_892_582, 1_892_500], -18),
            ],
            // Offset: -1 and -18. Rate: half of -3 - 6, which is -4, and -8; beside the stored 8.
            "close 0 -9 2 0 0 0 0 2",
            2,
        ),
    ];
    play(plan, random, late_settings(56, [40, 44]), &cycles);
}

/// One number in the first cycle of the counter and one in the second, with correction 56 and delay 40.
fn add_across(plan: &mut Plan, random: &mut Random, channel: Channel) {
    let even = [(1, channel, [1_279_990, 1_280_010], -116), (2, channel, [1_280_120, 1_279_999], 25)];
    let odd = [(1, channel, [1_279_999, 1_280_001], -98), (2, channel, [1_280_118, 1_280_000], 22)];
    let cycles: [Cycle; 2] = [
        // Half of -91.
        (40, &even, "close 0 -45 0 0 0 0 0 2", 0),
        // Half of -76, and of 18 - 3.
        (41, &odd, "close 0 -38 7 0 0 0 0 2", 7),
    ];
    play(plan, random, late_settings(56, [40, 40]), &cycles);
}

/// One ID that is measured at the same times on each of these channels.
fn on_each(channels: &[Channel], given: [u32; 2], deviation: i32) -> Vec<Measured> {
    channels.iter().map(|channel| (1, *channel, given, deviation)).collect()
}

/// The lowest and the highest deviation that a sheet gives, one in an even cycle and the other in the odd cycle behind it.
/// No sheet gives both ends of the range: the lowest takes the longest correction and delay, the highest none at all. So
/// the differences are 5,120,000 and -5,120,000; all terms are limited.
fn add_ends(plan: &mut Plan, random: &mut Random, channels: &[Channel]) {
    for (late, lowest, highest) in [(0, -2_560_000, HIGHEST), (255, LOWEST, 2_559_490)] {
        let lowest = on_each(channels, [0, 2_560_000], lowest);
        let highest = on_each(channels, [2_560_000, 0], highest);
        let cycles: [Cycle; 4] = [
            (60, &lowest, "close 0 -20000 0 0 0 1 0 1", 0),
            (61, &highest, "close 0 20000 4000 0 0 1 1 1", 4_000),
            (62, &highest, "close 0 20000 4000 0 0 1 0 1", 4_000),
            (63, &lowest, "close 0 -20000 -4000 0 0 1 1 1", -4_000),
        ];
        play(plan, random, late_settings(late, [late, late]), &cycles);
    }
}

/// The whole range apart, 5,120,510 and -5,120,510: the even cycle was closed in a state that is put, and the odd one is
/// measured with the sheet that the other end takes. With both channels the sums are 10,241,020 and -10,241,020.
fn add_whole_range(plan: &mut Plan, random: &mut Random, channels: &[Channel]) {
    let cases = [
        (0, LOWEST, [2_560_000, 0], HIGHEST, "close 0 20000 4000 0 0 1 1 1", 4_000),
        (255, HIGHEST, [0, 2_560_000], LOWEST, "close 0 -20000 -4000 0 0 1 1 1", -4_000),
    ];
    for (late, earlier, given, later, line, stored) in cases {
        let open = open_at(late_settings(late, [late, late]), 4, Default::default());
        let held = closed(&with_measured(&open, 4, &on_each(channels, [0, 0], earlier)), 0);
        put(plan, &held);
        play_on(plan, random, held, &[(5, &on_each(channels, given, later), line, stored)]);
    }
}

/// Two IDs whose differences are 5,120,000 and -5,119,983, and then -5,120,000 and 5,119,983: their sums are 17 and -17, as
/// are those of the offsets.
fn add_midpoints(plan: &mut Plan, random: &mut Random) {
    let cycles: [Cycle; 4] = [
        (20, &[(1, A, [0, 2_560_000], -2_560_000), (2, B, [2_560_000, 0], HIGHEST)], "close 0 0 0 0 0 0 0 2", 0),
        (21, &[(1, A, [2_560_000, 0], HIGHEST), (2, B, [17, 2_560_000], -2_559_983)], "close 0 8 8 0 0 0 0 2", 8),
        (22, &[(1, A, [2_560_000, 0], HIGHEST), (2, B, [0, 2_560_000], -2_560_000)], "close 0 0 8 0 0 0 0 2", 8),
        // -8 beside the stored 8.
        (23, &[(1, A, [0, 2_560_000], -2_560_000), (2, B, [2_559_983, 0], 2_559_983)], "close 0 -8 0 0 0 0 0 2", 0),
    ];
    play(plan, random, late_settings(0, [0, 0]), &cycles);
}

/// One ID whose differences are 5,120,000 on A and -5,119,990 on B, and then -5,120,000 and 5,119,989: half of 10 and of
/// -11. The offset, which is the smaller of two, is limited.
fn add_half_sums(plan: &mut Plan, random: &mut Random) {
    let cycles: [Cycle; 4] = [
        (20, &[(1, A, [0, 2_560_000], LOWEST), (1, B, [2_560_000, 0], 2_559_490)], "close 0 -20000 0 0 0 1 0 1", 0),
        (
            21,
            &[(1, A, [2_560_000, 0], 2_559_490), (1, B, [10, 2_560_000], -2_560_500)],
            "close 0 -20000 5 0 0 1 0 1",
            5,
        ),
        (22, &[(1, A, [2_560_000, 0], 2_559_490), (1, B, [0, 2_560_000], LOWEST)], "close 0 -20000 5 0 0 1 0 1", 5),
        // -5 beside the stored 5.
        (23, &[(1, A, [0, 2_560_000], LOWEST), (1, B, [2_559_989, 0], 2_559_479)], "close 0 -20000 0 0 0 1 0 1", 0),
    ];
    play(plan, random, late_settings(255, [255, 255]), &cycles);
}

/// The node's own 0 and three IDs, of which two are as far apart as the sheet allows. These go, and 0 is left with the
/// third one. B has no delay, and the damping is 3.
fn add_own_zero(plan: &mut Plan, random: &mut Random) {
    let apart = [(1, A, [0, 2_560_000], LOWEST), (2, B, [2_560_000, 0], 2_559_745)];
    let crossed = [(1, A, [2_560_000, 0], 2_559_490), (2, B, [0, 2_560_000], -2_560_255)];
    let with_third = |[first, second]: [Measured; 2], given, deviation| [first, second, (3, A, given, deviation)];
    let cycles: [Cycle; 4] = [
        (20, &with_third(apart, [600_510, 600_000], 0), "close 0 0 0 0 0 0 0 3", 0),
        // Half of 17, and nearer to 0 by 3.
        (21, &with_third(crossed, [1_880_527, 1_880_000], 17), "close 0 8 5 0 0 0 0 3", 5),
        (22, &with_third(crossed, [600_510, 600_000], 0), "close 0 0 5 0 0 0 0 3", 5),
        // Half of -20 beside the stored 5, and nearer to 0 by 3.
        (23, &with_third(apart, [1_880_490, 1_880_000], -20), "close 0 -10 -2 0 0 0 0 3", -2),
    ];
    let settings = Settings { sends_sync: true, ..late_settings(255, [255, 0]) };
    play(plan, random, settings.with_field(DRIFT_DAMPING, 3), &cycles);
}
