//! Loading: the ends of every range, every field out of range, and that nothing stays of what was listed before.

use super::listed::TIMES_OF_01;
use crate::channel::Channel;
use crate::clock_history::{close, load, measure, open, put, refuse_all, show};
use crate::clock_numbers::ClockNumbers;
use crate::clock_scene::{fair_clock, late_settings, open_at, row_on, sync_status, wide_settings};
use crate::draft::fair_cycle;
use crate::faults::wrong_value;
use crate::plan::{Expected, Plan};
use crate::random::Random;
use crate::scene::fair_settings;
use crate::script::Command;
use crate::settings::{self, Settings, FIELDS};
use crate::sheet_mark::USUAL;

pub fn add(plan: &mut Plan, random: &mut Random) {
    let zeros = ClockNumbers::default();
    show(plan, &zeros);
    refuse_all(plan, &zeros);
    for field in 1..=FIELDS {
        let (lowest, highest) = settings::ends(field);
        for value in [lowest, highest] {
            let settings = fair_settings(random).with_field(field, value);
            add_taken(plan, random, settings);
        }
        for (value, _) in settings::beyond(field) {
            let settings = fair_settings(random).with_field(field, value);
            add_refused(plan, random, settings, field);
        }
        for later in field + 1..=FIELDS {
            let with_later = fair_settings(random).with_field(later, wrong_value(random, later));
            let settings = with_later.with_field(field, wrong_value(random, field));
            add_refused(plan, random, settings, field);
        }
    }
    for channel in Channel::BOTH {
        add_loaded_in_an_open_cycle(plan, random, channel);
        add_loaded_between_two_cycles(plan, random, channel);
    }
}

/// 01 "Settings sheet": a fresh state, whatever was held before.
fn add_taken(plan: &mut Plan, random: &mut Random, settings: Settings) {
    put(plan, &fair_clock(random));
    load(plan, settings);
    show(plan, &fresh(settings));
}

fn fresh(settings: Settings) -> ClockNumbers {
    ClockNumbers { settings, ..ClockNumbers::default() }
}

/// No state was handed in, so that the one of all zeros comes back; with it nothing goes on.
fn add_refused(plan: &mut Plan, random: &mut Random, settings: Settings, field: usize) {
    load(plan, fair_settings(random));
    open(plan, fair_cycle(random));
    plan.add(Command::Load(settings), Expected::Line(format!("load 17 {field}")));
    let zeros = ClockNumbers::default();
    show(plan, &zeros);
    refuse_all(plan, &zeros);
}

/// A sheet with a delay of 40 on both channels.
fn delayed() -> Settings {
    late_settings(0, [40, 40])
}

/// New delays while old deviations are listed: no cycle is open any more, and the same ID can be measured again.
fn add_loaded_in_an_open_cycle(plan: &mut Plan, random: &mut Random, channel: Channel) {
    let (old, new) = (wide_settings(false), delayed());
    let status = sync_status(random, channel, 5, 4);
    load(plan, old);
    open(plan, 4);
    measure(plan, &status, TIMES_OF_01, 100);
    load(plan, new);
    show(plan, &fresh(new));
    open(plan, 4);
    measure(plan, &status, TIMES_OF_01, 60);
    let mut after = open_at(new, 4, Default::default());
    after.lists[0].count = 1;
    after.lists[0].rows[0] = row_on(5, channel, 60);
    show(plan, &after);
    close(plan, new.mark, "close 0 60 0 0 0 0 0 1");
    load(plan, old);
    open(plan, 6);
    close(plan, old.mark, "close 0 0 0 1 0 0 0 0");
}

/// An even cycle before the load makes no pair with the odd one behind it.
fn add_loaded_between_two_cycles(plan: &mut Plan, random: &mut Random, channel: Channel) {
    let new = delayed();
    load(plan, wide_settings(false));
    open(plan, 4);
    measure(plan, &sync_status(random, channel, 5, 4), TIMES_OF_01, 100);
    close(plan, USUAL, "close 0 100 0 0 0 0 0 1");
    load(plan, new);
    open(plan, 5);
    show(plan, &open_at(new, 5, Default::default()));
    measure(plan, &sync_status(random, channel, 5, 5), TIMES_OF_01, 60);
    close(plan, new.mark, "close 0 60 0 0 1 0 0 1");
}
