//! Statuses under the clock's mark and under others, opened and put: what is listed has the clock's.

use super::super::listed::TIMES_OF_01;
use super::MARKS;
use crate::channel::Channel;
use crate::clock_history::{close, load, open, refuse, show};
use crate::clock_scene::{closed, late_settings, open_at, row, settings_with_static, status_with};
use crate::draft::Draft;
use crate::frame::Indicators;
use crate::history::{self, Happening};
use crate::plan::{Expected, Plan};
use crate::random::Random;
use crate::refusal::Refusal;
use crate::scene::{Kind, Scene};
use crate::script::Command;
use crate::sheet_mark::SheetMark;

/// A sync frame that isn't a null frame.
const SYNC: u8 = 0b01100;

pub(super) fn add(plan: &mut Plan, random: &mut Random) {
    for mark in MARKS {
        add_cycle(plan, random, mark, 6, "close 0 100 0 0 0 0 0 10");
        add_cycle(plan, random, mark, 7, "close 0 100 0 0 1 0 0 10");
    }
}

/// An ID for each mark of a status that is opened and for each of one that is put, on both channels. Without delays each
/// deviation is 100.
fn add_cycle(plan: &mut Plan, random: &mut Random, mark: SheetMark, cycle: u8, line: &str) {
    let settings = late_settings(0, [0, 0]).with_mark(mark);
    let mut held = open_at(settings, cycle, Default::default());
    load(plan, settings);
    open(plan, cycle);
    let marks = MARKS.into_iter().chain([mark.with_bit_turned(31)]);
    let statuses = marks.flat_map(|of_status| [(of_status, true), (of_status, false)]);
    for (place, (of_status, opened)) in statuses.enumerate() {
        let id = 20 + place as u16;
        for (channel, on_b) in [(Channel::A, None), (Channel::B, Some(100))] {
            let settings = settings_with_static(random, id).with_mark(of_status);
            let slot = Scene { settings, channel, slot: id, cycle, kind: Kind::Static };
            hold(plan, random, &slot, opened);
            plan.add(Command::Measure(TIMES_OF_01), Expected::line("measure 0 100"));
            let list = &mut held.lists[usize::from(cycle % 2)];
            list.count = place as u8 + 1;
            list.rows[place] = row(id, Some(100), on_b);
            held = held.marked();
            show(plan, &held);
            // Under whatever mark, a second measurement of the ID on this channel is refused.
            refuse(plan, &held, Command::Measure(TIMES_OF_01), Refusal::MeasuredAlready);
        }
    }
    close(plan, mark, line);
    show(plan, &closed(&held, 0));
}

/// A status that keeps a sync frame of the slot, which arrived there or was put, and which has the slot's mark.
fn hold(plan: &mut Plan, random: &mut Random, slot: &Scene, opened: bool) {
    if opened {
        let sync = Draft { indicators: Indicators::from_flags(SYNC), ..slot.good(random) };
        return history::play_opened(plan, slot, &[Happening::Good(sync)]);
    }
    let status = status_with(slot.settings, slot.channel, slot.slot, slot.cycle, SYNC);
    history::put(plan, &status);
    history::show(plan, &status);
}
