//! Terms, limits and corrections that are known from the papers beside 01, played from a load on with their lines.

use super::listed::{CORRECTIONS, TIMES_OF_01};
use crate::channel::Channel::{self, A, B};
use crate::clock::Times;
use crate::clock_history::{close, load, measure, open, NO_TIME};
use crate::clock_scene::{late_settings, sync_status, wide_settings};
use crate::history;
use crate::plan::{Expected, Plan};
use crate::random::Random;
use crate::script::Command;
use crate::settings::{Settings, OFFSET_LIMIT, RATE_LIMIT, SYNC_ID_LIMIT};

/// An ID that is measured on a channel, and its deviation.
type Measured = (u16, Channel, i64);

/// A cycle, what is measured in it, and the line of its closing.
type Cycle = (u8, &'static [Measured], &'static str);

pub fn add(plan: &mut Plan, random: &mut Random) {
    add_offsets(plan, random);
    add_halves_of_17(plan, random);
    add_rate_halves(plan, random);
    add_beside_the_limit(plan, random);
    for channel in Channel::BOTH {
        add_decoding_corrections(plan, random, channel);
    }
    add_highest_limits(plan, random);
}

fn play(plan: &mut Plan, random: &mut Random, settings: Settings, cycles: &[Cycle]) {
    load(plan, settings);
    for (cycle, measured, line) in cycles {
        open(plan, *cycle);
        for (id, channel, deviation) in *measured {
            let times = Times { observed: (20_000 + deviation) as u32, action_point: 20_000 };
            measure(plan, &sync_status(random, *channel, *id, *cycle), times, *deviation);
        }
        close(plan, settings.mark, line);
    }
}

/// {10, 21}; and IDs 1 (-9 and 4), 2 (12), 5 (7 and 30) and 9 (-40). Without and with the node's own 0.
fn add_offsets(plan: &mut Plan, random: &mut Random) {
    const FOUR: &[Measured] = &[(1, A, -9), (1, B, 4), (2, A, 12), (5, A, 7), (5, B, 30), (9, B, -40)];
    const TWO: &[Measured] = &[(1, A, 10), (2, B, 21)];
    let (alone, sending) = (wide_settings(false), wide_settings(true));
    let cases: [(Settings, Cycle); 6] = [
        (alone, (2, TWO, "close 0 15 0 0 0 0 0 2")),
        (sending, (2, TWO, "close 0 10 0 0 0 0 0 2")),
        (alone, (2, FOUR, "close 0 -1 0 0 0 0 0 4")),
        (sending, (2, FOUR, "close 0 -1 0 0 0 0 0 4")),
        (alone.with_field(OFFSET_LIMIT, 0), (2, FOUR, "close 0 0 0 0 0 1 0 4")),
        (sending.with_field(OFFSET_LIMIT, 0), (2, FOUR, "close 0 0 0 0 0 1 0 4")),
    ];
    for (settings, cycle) in cases {
        play(plan, random, settings, &[cycle]);
    }
}

/// 8 and -8: as midpoint of two IDs and of one beside the own 0, for both terms, and as half the sum of two channels.
fn add_halves_of_17(plan: &mut Plan, random: &mut Random) {
    let cases: [(bool, [Cycle; 2]); 6] = [
        (
            false,
            [
                (4, &[(1, A, 8), (2, A, 9)], "close 0 8 0 0 0 0 0 2"),
                (5, &[(1, A, 16), (2, A, 18)], "close 0 17 8 0 0 0 0 2"),
            ],
        ),
        (
            false,
            [
                (4, &[(1, B, -8), (2, B, -9)], "close 0 -8 0 0 0 0 0 2"),
                (5, &[(1, B, -16), (2, B, -18)], "close 0 -17 -8 0 0 0 0 2"),
            ],
        ),
        (true, [(4, &[(1, A, 17)], "close 0 8 0 0 0 0 0 1"), (5, &[(1, A, 34)], "close 0 17 8 0 0 0 0 1")]),
        (true, [(4, &[(1, B, -17)], "close 0 -8 0 0 0 0 0 1"), (5, &[(1, B, -34)], "close 0 -17 -8 0 0 0 0 1")]),
        (
            false,
            [
                (4, &[(1, A, 0), (1, B, 0)], "close 0 0 0 0 0 0 0 1"),
                (5, &[(1, A, 8), (1, B, 9)], "close 0 8 8 0 0 0 0 1"),
            ],
        ),
        (
            false,
            [
                (4, &[(1, A, 0), (1, B, 0)], "close 0 0 0 0 0 0 0 1"),
                (5, &[(1, A, -8), (1, B, -9)], "close 0 -9 -8 0 0 0 0 1"),
            ],
        ),
    ];
    for (sends_sync, cycles) in cases {
        play(plan, random, wide_settings(sends_sync), &cycles);
    }
}

/// Differences of one ID on A and B, and half their sum: (5, -8) -1, (7, 4) 5, (-3, -4) -3. The offset is the smaller one.
fn add_rate_halves(plan: &mut Plan, random: &mut Random) {
    const ON_TIME: Cycle = (6, &[(3, A, 0), (3, B, 0)], "close 0 0 0 0 0 0 0 1");
    let cases: [Cycle; 3] = [
        (7, &[(3, A, 5), (3, B, -8)], "close 0 -8 -1 0 0 0 0 1"),
        (7, &[(3, A, 7), (3, B, 4)], "close 0 4 5 0 0 0 0 1"),
        (7, &[(3, A, -3), (3, B, -4)], "close 0 -4 -3 0 0 0 0 1"),
    ];
    for case in cases {
        play(plan, random, wide_settings(false), &[ON_TIME, case]);
    }
}

/// Limit 2. IDs 1 and 2 in an even cycle and 3 and 4 in the odd one are taken, as the limit is that of one cycle; and 1 and
/// 2 where the node sends sync itself. A third one in the open cycle is refused.
fn add_beside_the_limit(plan: &mut Plan, random: &mut Random) {
    let cycles: [Cycle; 2] =
        [(8, &[(1, A, 5), (2, B, 7)], "close 0 6 0 0 0 0 0 2"), (9, &[(3, B, 1), (4, A, 2)], "close 0 1 0 0 1 0 0 2")];
    play(plan, random, wide_settings(false).with_field(SYNC_ID_LIMIT, 2), &cycles);
    let cycles: [Cycle; 1] = [(8, &[(1, A, 4), (2, B, 6)], "close 0 4 0 0 0 0 0 2")];
    play(plan, random, wide_settings(true).with_field(SYNC_ID_LIMIT, 2), &cycles);
    open(plan, 10);
    for (id, line) in [(1, "measure 0 0"), (2, "measure 0 0"), (3, "measure 15 0")] {
        history::put(plan, &sync_status(random, A, id, 10));
        plan.add(Command::Measure(NO_TIME), Expected::line(line));
    }
}

fn add_decoding_corrections(plan: &mut Plan, random: &mut Random, channel: Channel) {
    for (correction, delay, deviation) in &CORRECTIONS[2..] {
        load(plan, late_settings(*correction, [*delay, *delay]));
        open(plan, 0);
        measure(plan, &sync_status(random, channel, 3, 0), TIMES_OF_01, (*deviation).into());
    }
}

/// The highest limits of offset and rate that a cluster can have.
pub const CLUSTER_LIMITS: [u32; 2] = [16_082, 3_846];

/// 002 B.4.18 and B.4.19: 3,846 for the rate and 16,082 for the offset are in range, and act at both ends.
fn add_highest_limits(plan: &mut Plan, random: &mut Random) {
    let [offset, rate] = CLUSTER_LIMITS;
    let settings = wide_settings(false).with_field(OFFSET_LIMIT, offset).with_field(RATE_LIMIT, rate);
    let cases: [[Cycle; 2]; 4] = [
        [(0, &[(1, A, 16_082)], "close 0 16082 0 0 0 0 0 1"), (1, &[(1, A, 19_928)], "close 0 16082 3846 0 0 1 0 1")],
        [(0, &[(1, B, 16_083)], "close 0 16082 0 0 0 1 0 1"), (1, &[(1, B, 19_930)], "close 0 16082 3846 0 0 1 1 1")],
        [
            (0, &[(1, A, -16_082)], "close 0 -16082 0 0 0 0 0 1"),
            (1, &[(1, A, -19_928)], "close 0 -16082 -3846 0 0 1 0 1"),
        ],
        [
            (0, &[(1, B, -16_083)], "close 0 -16082 0 0 0 1 0 1"),
            (1, &[(1, B, -19_930)], "close 0 -16082 -3846 0 0 1 1 1"),
        ],
    ];
    for cycles in cases {
        play(plan, random, settings, &cycles);
    }
}
