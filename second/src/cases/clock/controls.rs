//! External controls with every term there and missing, in even and odd cycles.

use crate::clock_history::{close_put, put, refuse, Demand};
use crate::clock_numbers::ListNumbers;
use crate::clock_scene::{list, open_at, row, wide_settings};
use crate::closing::Controls;
use crate::plan::Plan;
use crate::refusal::Refusal;
use crate::script::Command;
use crate::settings::{EXTERNAL_OFFSET_UNIT, EXTERNAL_RATE_UNIT, HIGHEST_UNIT};

const STORED: i32 = -300;

pub fn add(plan: &mut Plan) {
    add_wrong(plan);
    for (offset_unit, rate_unit) in [(HIGHEST_UNIT.into(), 5), (1, HIGHEST_UNIT.into())] {
        for offset in [-1, 0, 1] {
            for rate in [-1, 0, 1] {
                let external = [i64::from(offset) * offset_unit, i64::from(rate) * rate_unit];
                add_all(plan, Controls { offset, rate }, [offset_unit, rate_unit], external);
            }
        }
    }
}

/// Everything but -1, 0 and 1 is refused, in either place and in both.
fn add_wrong(plan: &mut Plan) {
    let seen = list(&[row(8, Some(40), None)]);
    let held = open_at(wide_settings(true), 19, [seen, seen]);
    put(plan, &held);
    for wrong in [-128, -127, -3, -2, 2, 3, 126, 127] {
        for (offset, rate) in [(wrong, 0), (0, wrong), (wrong, -1), (1, wrong), (wrong, wrong)] {
            let command = Command::CloseCycle(Controls { offset, rate });
            refuse(plan, &held, command, Refusal::Control);
        }
    }
}

fn add_all(plan: &mut Plan, controls: Controls, units: [i64; 2], [offset, rate]: [i64; 2]) {
    let settings = wide_settings(true).with_field(EXTERNAL_OFFSET_UNIT, units[0] as u32);
    let settings = settings.with_field(EXTERNAL_RATE_UNIT, units[1] as u32);
    let (none, seen) = (list(&[]), list(&[row(8, Some(40), None)]));
    let rate = rate + i64::from(STORED);
    let missing = Demand { offset, rate, offset_missing: true, ..Demand::default() };
    let found = Demand { offset: 20 + offset, rate, ids: 1, ..Demand::default() };
    let cases: [(u8, [ListNumbers; 2], Demand); 5] = [
        // In an even cycle the odd list, which opening would have emptied, is of no account.
        (18, [none, seen], missing),
        (18, [seen, seen], found),
        (19, [seen, none], Demand { rate_missing: true, ..missing }),
        (19, [none, seen], Demand { rate_missing: true, ..found }),
        // Differences 0 and the node's own 0.
        (19, [seen, seen], found),
    ];
    for (cycle, lists, demand) in cases {
        let mut before = open_at(settings, cycle, lists);
        before.rate = STORED;
        close_put(plan, &before, controls, &demand, STORED.into());
    }
}
