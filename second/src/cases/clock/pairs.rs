//! Which deviations count: the smaller of two for the offset, and for the rate those of channels seen in both cycles.

use crate::clock_history::{close_put, Demand};
use crate::clock_numbers::{ClockNumbers, RowNumbers};
use crate::clock_scene::{list, open_at, row, wide_settings};
use crate::closing::Controls;
use crate::plan::Plan;

pub fn add(plan: &mut Plan) {
    add_smaller(plan);
    for even in 0..4 {
        for odd in 1..4 {
            add_seen(plan, even, odd);
        }
    }
    add_half_sums(plan);
    add_orders(plan);
    add_even(plan);
}

/// Of -9 and 4 it is -9: by sign, not by size.
fn add_smaller(plan: &mut Plan) {
    for (on_a, on_b, smaller) in
        [(-9, 4, -9), (4, -9, -9), (-4, 9, -4), (9, -4, -4), (5, 5, 5), (-5, -6, -6), (0, 0, 0)]
    {
        for cycle in [30, 31] {
            let mut lists = [list(&[]), list(&[])];
            lists[usize::from(cycle % 2)] = list(&[row(4, Some(on_a), Some(on_b))]);
            let demand = Demand { offset: smaller, rate_missing: cycle == 31, ids: 1, ..Demand::default() };
            close_put(plan, &open_at(wide_settings(false), cycle, lists), Controls::NONE, &demand, 0);
        }
    }
}

fn seen_as(seen: u8, deviations: [i32; 2]) -> RowNumbers {
    RowNumbers { seen, deviations, ..row(4, None, None) }
}

/// The difference is 10 on A and 20 on B; on channels seen once there is none.
fn add_seen(plan: &mut Plan, even: u8, odd: u8) {
    let rate = match even & odd {
        0 => None,
        1 => Some(10),
        2 => Some(20),
        _ => Some(15),
    };
    let earlier = if even == 0 { list(&[]) } else { list(&[seen_as(even, [-10, -20])]) };
    let later = list(&[seen_as(odd, [0, 0])]);
    for own in [false, true] {
        let mut before = open_at(wide_settings(own), 31, [earlier, later]);
        before.rate = 3;
        // The node's own 0 halves a single value.
        let midpoint = rate.map(|rate| if own { rate / 2 } else { rate });
        let term = midpoint.unwrap_or(0) + 3;
        let demand = Demand { rate: term, rate_missing: rate.is_none(), ids: 1, ..Demand::default() };
        close_put(plan, &before, Controls::NONE, &demand, term);
    }
}

/// Half the sum of two channels drops the fraction toward zero.
fn add_half_sums(plan: &mut Plan) {
    let cases = [([-8, -9], -8), ([8, 9], 8), ([8, -25], -8), ([-8, 25], 8), ([0, -1], 0), ([1, 0], 0), ([-1, -2], -1)];
    for (differences, half) in cases {
        let lists = [list(&[seen_as(3, [0, 0])]), list(&[seen_as(3, differences)])];
        let offset = differences.into_iter().min().expect("there are two").into();
        let demand = Demand { offset, rate: half, ids: 1, ..Demand::default() };
        close_put(plan, &open_at(wide_settings(false), 31, lists), Controls::NONE, &demand, half);
    }
}

/// An even cycle has no rate of its own, even where a state was put that has pairs in its lists.
fn add_even(plan: &mut Plan) {
    for stored in [0, 3, -3] {
        let lists = [list(&[seen_as(3, [-10, -20])]), list(&[seen_as(3, [50, 60]), row(5, Some(1), None)])];
        let before = ClockNumbers { rate: stored, ..open_at(wide_settings(false), 30, lists) };
        let demand = Demand { offset: -20, rate: stored.into(), ids: 1, ..Demand::default() };
        close_put(plan, &before, Controls::NONE, &demand, stored.into());
    }
}

/// IDs stand in another order in the odd list, and some of them in one list only.
fn add_orders(plan: &mut Plan) {
    let even = [row(1, Some(100), None), row(2, Some(200), Some(7)), row(3, None, Some(300)), row(9, Some(1), Some(2))];
    let odd = [row(7, Some(-5), None), row(3, Some(4), Some(308)), row(2, Some(205), None), row(1, None, Some(1))];
    let before = open_at(wide_settings(false), 31, [list(&even), list(&odd)]);
    // Offsets -5, 4, 205 and 1: of 1 and 4 the half. Rates: 8 of ID 3 on B and 5 of ID 2 on A.
    let demand = Demand { offset: 2, rate: 6, ids: 4, ..Demand::default() };
    close_put(plan, &before, Controls::NONE, &demand, 6);
}
