//! Sheets at the ends of every range and beyond them: whatever the mark, the answer is the same.

use super::MARKS;
use crate::clock_history::{load, show};
use crate::clock_numbers::ClockNumbers;
use crate::history;
use crate::plan::{Expected, Plan};
use crate::random::Random;
use crate::scene::{fair_settings, Scene};
use crate::script::{Command, Opening};
use crate::settings::{self, Settings, FIELDS};
use crate::status_numbers::StatusNumbers;

pub(super) fn add(plan: &mut Plan, random: &mut Random) {
    for field in 1..=FIELDS {
        let fair = fair_settings(random);
        let (lowest, highest) = settings::ends(field);
        for mark in MARKS {
            let with = |value| fair.with_field(field, value).with_mark(mark);
            for (value, _) in settings::beyond(field) {
                add_taken(plan, random, with(lowest));
                add_refused(plan, random, with(value), field);
            }
            add_taken(plan, random, with(highest));
        }
    }
    for mark in MARKS {
        let slot = Scene::any(random);
        let opening = Opening { settings: slot.settings.with_mark(mark), ..slot.opening() };
        add_refused_slot(plan, Opening { channel: 2, ..opening }, "slot 1 0");
        add_refused_slot(plan, Opening { slot: 0, ..opening }, "slot 9 0");
        add_refused_slot(plan, Opening { cycle: 64, ..opening }, "slot 11 0");
    }
}

/// What is held then has the mark.
fn add_taken(plan: &mut Plan, random: &mut Random, settings: Settings) {
    load(plan, settings);
    show(plan, &ClockNumbers { settings, ..ClockNumbers::default() });
    let slot = Scene { settings, ..Scene::first_slot(random) };
    plan.add(slot.open(), Expected::line("slot 0 0"));
    history::show(plan, &slot.fresh());
}

/// What is held then has mark 0.
fn add_refused(plan: &mut Plan, random: &mut Random, settings: Settings, field: usize) {
    plan.add(Command::Load(settings), Expected::Line(format!("load 17 {field}")));
    show(plan, &ClockNumbers::default());
    let slot = Scene { settings, ..Scene::first_slot(random) };
    add_refused_slot(plan, slot.opening(), &format!("slot 17 {field}"));
}

fn add_refused_slot(plan: &mut Plan, opening: Opening, line: &str) {
    plan.add(Command::OpenSlot(opening), Expected::line(line));
    history::show(plan, &StatusNumbers::default());
}
