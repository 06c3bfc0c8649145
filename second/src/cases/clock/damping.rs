//! Damping of the rate, the sum split between midpoint and stored rate.

use crate::clock_history::{close_put, Demand};
use crate::clock_scene::{list, open_at, row, wide_settings};
use crate::closing::Controls;
use crate::plan::Plan;
use crate::settings::{DRIFT_DAMPING, HIGHEST_DAMPING};

pub fn add(plan: &mut Plan) {
    let most = HIGHEST_DAMPING as i32;
    for d in [0, 1, 2, most] {
        for (x, damped) in [(d + 5, 5), (d + 1, 1), (d, 0), (-d, 0), (-d - 1, -1), (-d - 5, -5)] {
            add_damped(plan, d, x, damped);
        }
    }
    for (d, x) in [(1, 0), (2, 1), (2, -1), (most, most - 1), (most, 1 - most), (most, 0)] {
        add_damped(plan, d, x, 0);
    }
}

fn add_damped(plan: &mut Plan, d: i32, x: i32, damped: i64) {
    let settings = wide_settings(false).with_field(DRIFT_DAMPING, d as u32);
    for stored in [0, x, -7] {
        let lists = [list(&[row(8, Some(stored - x), None)]), list(&[row(8, Some(0), None)])];
        let mut before = open_at(settings, 13, lists);
        before.rate = stored;
        let demand = Demand { rate: damped, ids: 1, ..Demand::default() };
        close_put(plan, &before, Controls::NONE, &demand, damped);
    }
}
