//! The limits of both terms at both ends, and the external term behind them.

use crate::clock_history::{close_put, Demand};
use crate::clock_numbers::ClockNumbers;
use crate::clock_scene::{list, open_at, row, wide_settings};
use crate::closing::Controls;
use crate::plan::Plan;
use crate::settings::{self, EXTERNAL_OFFSET_UNIT, EXTERNAL_RATE_UNIT, HIGHEST_UNIT, OFFSET_LIMIT, RATE_LIMIT};

const UNIT: i8 = HIGHEST_UNIT as i8;

/// So far beyond a limit a term can be made by one deviation, with the highest limit and a stored rate as well.
const FAR: i32 = 2_500_000;

/// A term, what its limit leaves of it, and whether that is flagged.
struct Limited {
    limit: i32,
    term: i32,
    within: i32,
    flagged: bool,
}

pub fn add(plan: &mut Plan) {
    for field in [OFFSET_LIMIT, RATE_LIMIT] {
        let (_, highest) = settings::ends(field);
        let limits = [0, 1, 10, highest as i32];
        for limited in limits.into_iter().flat_map(around) {
            for control in [-1, 0, 1] {
                match field {
                    OFFSET_LIMIT => add_offset(plan, &limited, control),
                    _ => add_rate(plan, &limited, control),
                }
            }
        }
    }
}

fn around(limit: i32) -> Vec<Limited> {
    let with = |(term, within, flagged)| Limited { limit, term, within, flagged };
    let cases = [
        (limit, limit, false),
        (-limit, -limit, false),
        (limit + 1, limit, true),
        (-limit - 1, -limit, true),
        (limit + FAR, limit, true),
        (-limit - FAR, -limit, true),
    ];
    cases.map(with).into()
}

/// In even and odd cycles in turn.
fn add_offset(plan: &mut Plan, case: &Limited, control: i8) {
    let settings = wide_settings(false).with_field(OFFSET_LIMIT, case.limit as u32);
    let settings = settings.with_field(EXTERNAL_OFFSET_UNIT, UNIT as u32);
    let odd = (control == 0) == (case.term < 0);
    let (none, seen) = (list(&[]), list(&[row(8, Some(case.term), None)]));
    let lists = if odd { [none, seen] } else { [seen, none] };
    let demand = Demand {
        offset: i64::from(case.within) + i64::from(control * UNIT),
        offset_limited: case.flagged,
        rate_missing: odd,
        ids: 1,
        ..Demand::default()
    };
    let before = open_at(settings, 10 + u8::from(odd), lists);
    close_put(plan, &before, Controls { offset: control, rate: 0 }, &demand, 0);
}

/// The term comes from the midpoint and from a stored rate at either end of its range.
fn add_rate(plan: &mut Plan, case: &Limited, control: i8) {
    let settings = wide_settings(false).with_field(RATE_LIMIT, case.limit as u32);
    let settings = settings.with_field(EXTERNAL_RATE_UNIT, UNIT as u32);
    let stored = if (control == 0) == (case.term < 0) { case.limit } else { -case.limit };
    let lists = [list(&[row(8, None, Some(stored - case.term))]), list(&[row(8, None, Some(0))])];
    let before = ClockNumbers { rate: stored, ..open_at(settings, 11, lists) };
    let demand = Demand {
        rate: i64::from(case.within) + i64::from(control * UNIT),
        rate_limited: case.flagged,
        ids: 1,
        ..Demand::default()
    };
    close_put(plan, &before, Controls { offset: 0, rate: control }, &demand, case.within.into());
}
