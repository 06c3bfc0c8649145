//! States that are put with deviations at both ends of their range, and closed. The terms are small as a rule, so that a
//! value that was cut, wrapped or held at some bound on the way would show.

use super::{HIGHEST, LOWEST};
use crate::cases::clock::listed::rows;
use crate::channel::Channel::{A, B};
use crate::clock_history::{close, put, refuse_all, show};
use crate::clock_numbers::{ClockNumbers, RowNumbers};
use crate::clock_scene::{closed, list, open_at, row, row_on, wide_settings};
use crate::plan::Plan;
use crate::settings::{Settings, DRIFT_DAMPING};

pub(super) fn add(plan: &mut Plan) {
    add_beyond(plan);
    add_offsets(plan);
    add_half_sums(plan);
    add_midpoints(plan);
    add_own_zero(plan);
    add_stored(plan);
}

fn put_and_close(plan: &mut Plan, before: &ClockNumbers, line: &str, stored: i32) {
    put(plan, before);
    close(plan, before.settings.mark, line);
    show(plan, &closed(before, stored));
}

/// A state is sound just beyond the range before C-12, and not just beyond the new one.
fn add_beyond(plan: &mut Plan) {
    let with = |place: usize, channel, deviation| {
        let mut lists = [list(&[]), list(&[])];
        lists[place] = list(&[row_on(1, channel, deviation)]);
        open_at(wide_settings(false), 5, lists)
    };
    let sound = [
        // Of the even list alone there are no terms.
        (0, A, -1_280_511, "close 0 0 0 1 1 0 0 0"),
        (0, A, 1_280_001, "close 0 0 0 1 1 0 0 0"),
        (1, B, -1_280_511, "close 0 -20000 0 0 1 1 0 1"),
        (1, B, 1_280_001, "close 0 20000 0 0 1 1 0 1"),
    ];
    for (place, channel, deviation, line) in sound {
        put_and_close(plan, &with(place, channel, deviation), line, 0);
    }
    for (place, channel, deviation) in [(0, A, -2_560_511), (0, A, 2_560_001), (1, B, -2_560_511), (1, B, 2_560_001)] {
        let unsound = with(place, channel, deviation);
        put(plan, &unsound);
        refuse_all(plan, &unsound);
    }
}

/// Both ends as offsets of an even cycle.
fn add_offsets(plan: &mut Plan) {
    let cases: [(&[RowNumbers], &str); 7] = [
        // Half of -510, of -509 and of 17.
        (&[row(1, Some(LOWEST), None), row(2, None, Some(HIGHEST))], "close 0 -255 0 0 0 0 0 2"),
        (&[row(1, None, Some(-2_560_509)), row(2, Some(HIGHEST), None)], "close 0 -254 0 0 0 0 0 2"),
        (&[row(1, Some(HIGHEST), None), row(2, None, Some(-2_559_983))], "close 0 8 0 0 0 0 0 2"),
        // The smaller of two channels.
        (&[row(1, Some(LOWEST), Some(HIGHEST))], "close 0 -20000 0 0 0 1 0 1"),
        (&[row(1, Some(HIGHEST), Some(LOWEST))], "close 0 -20000 0 0 0 1 0 1"),
        // Half of -5,121,020 and of 5,120,000.
        (&[row(1, Some(LOWEST), None), row(2, Some(LOWEST), None)], "close 0 -20000 0 0 0 1 0 2"),
        (&[row(1, None, Some(HIGHEST)), row(2, None, Some(HIGHEST))], "close 0 20000 0 0 0 1 0 2"),
    ];
    for (even, line) in cases {
        put_and_close(plan, &open_at(wide_settings(false), 4, [list(even), list(&[])]), line, 0);
    }
}

/// An odd cycle that is open behind an even one.
fn rated(settings: Settings, [even, odd]: [&[RowNumbers]; 2]) -> ClockNumbers {
    open_at(settings, 5, [list(even), list(odd)])
}

/// One ID: 5,120,510 on A and -5,120,500 on B, then -5,120,510 and 5,120,499; half of 10 and of -11. The offset is the
/// smaller of its two.
fn add_half_sums(plan: &mut Plan) {
    let up = [row(1, Some(LOWEST), Some(HIGHEST)), row(1, Some(HIGHEST), Some(-2_560_500))];
    let down = [row(1, Some(HIGHEST), Some(-2_560_499)), row(1, Some(LOWEST), Some(HIGHEST))];
    let cases = [(up, "close 0 -20000 5 0 0 1 0 1", 5), (down, "close 0 -20000 -5 0 0 1 0 1", -5)];
    for ([even, odd], line, stored) in cases {
        put_and_close(plan, &rated(wide_settings(false), [&[even], &[odd]]), line, stored);
    }
}

/// 5,120,510 of ID 1 on A and -5,120,493 of ID 2 on B, half of 17; the offset is half of -493.
fn up() -> [[RowNumbers; 2]; 2] {
    let even = [row(1, Some(LOWEST), None), row(2, None, Some(HIGHEST))];
    [even, [row(1, Some(HIGHEST), None), row(2, None, Some(-2_560_493))]]
}

/// -5,120,510 and 5,120,493, half of -17; the offset is half of -510.
fn down() -> [[RowNumbers; 2]; 2] {
    let even = [row(1, Some(HIGHEST), None), row(2, None, Some(-2_560_493))];
    [even, [row(1, Some(LOWEST), None), row(2, None, Some(HIGHEST))]]
}

fn add_midpoints(plan: &mut Plan) {
    let settings = wide_settings(false);
    for ([even, odd], line, stored) in
        [(up(), "close 0 -246 8 0 0 0 0 2", 8), (down(), "close 0 -255 -8 0 0 0 0 2", -8)]
    {
        put_and_close(plan, &rated(settings, [&even, &odd]), line, stored);
    }
    // Half of 10,241,020 of one ID and of -10,240,986 of the other leave 17, and -17 with the signs turned over.
    let [low, high] = [LOWEST, HIGHEST].map(|end| row(1, Some(end), Some(end)));
    let (other_low, other_high) = (row(2, Some(LOWEST), Some(-2_560_476)), row(2, Some(HIGHEST), Some(HIGHEST)));
    put_and_close(plan, &rated(settings, [&[low, other_high], &[high, other_low]]), "close 0 -255 8 0 0 0 0 2", 8);
    put_and_close(plan, &rated(settings, [&[high, other_low], &[low, other_high]]), "close 0 -255 -8 0 0 0 0 2", -8);
    // 5,120,510, 5,120,500, -5,120,493 and -5,120,510: those in the middle leave 7, and of the offsets -493. Values that had
    // wrapped would stand in another order.
    let even = rows(A, &[LOWEST, -2_560_500, HIGHEST, HIGHEST]);
    let odd = rows(A, &[HIGHEST, HIGHEST, -2_560_493, LOWEST]);
    put_and_close(plan, &rated(settings, [&even, &odd]), "close 0 -246 3 0 0 0 0 4", 3);
}

/// The node's own 0 between both ends, alone and with a third ID.
fn add_own_zero(plan: &mut Plan) {
    let settings = wide_settings(true);
    let cases: [([&[i32]; 2], &str, i32); 3] = [
        ([&[LOWEST, HIGHEST], &[HIGHEST, LOWEST]], "close 0 0 0 0 0 0 0 2", 0),
        ([&[LOWEST, HIGHEST, 0], &[HIGHEST, LOWEST, 17]], "close 0 8 8 0 0 0 0 3", 8),
        ([&[LOWEST, HIGHEST, 0], &[HIGHEST, LOWEST, -17]], "close 0 -8 -8 0 0 0 0 3", -8),
    ];
    for (deviations, line, stored) in cases {
        let [even, odd] = deviations.map(|of_cycle| rows(A, of_cycle));
        put_and_close(plan, &rated(settings, [&even, &odd]), line, stored);
    }
}

/// With a stored rate and with damping.
fn add_stored(plan: &mut Plan) {
    let [low, high] = [LOWEST, HIGHEST].map(|end| [row(1, Some(end), None), row(2, None, Some(end))]);
    let cases = [
        // 8 and 30 less 20, and the same below 0.
        (up(), 20, 30, "close 0 -246 18 0 0 0 0 2", 18),
        (down(), 20, -30, "close 0 -255 -18 0 0 0 0 2", -18),
        // 8 above the lowest rate.
        (up(), 0, -4_000, "close 0 -246 -3992 0 0 0 0 2", -3_992),
        // 5,120,510 and 4,000 less 20, and the same below 0.
        ([low, high], 20, 4_000, "close 0 20000 4000 0 0 1 1 2", 4_000),
        ([high, low], 20, -4_000, "close 0 -20000 -4000 0 0 1 1 2", -4_000),
    ];
    for ([even, odd], damping, rate, line, stored) in cases {
        let settings = wide_settings(false).with_field(DRIFT_DAMPING, damping);
        put_and_close(plan, &ClockNumbers { rate, ..rated(settings, [&even, &odd]) }, line, stored);
    }
}
