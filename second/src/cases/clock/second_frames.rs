//! 02 C-15: a slot with a second good frame is measured by the first one, which stays the kept one.
//!
//! All numbers are worked out by hand.

use crate::channel::Channel;
use crate::clock::Times;
use crate::clock_history::{close, load, open, put, refuse, refuse_measure, show, NO_TIME};
use crate::clock_numbers::ClockNumbers;
use crate::clock_scene::{
    closed, doubled, late_settings, list, open_at, row_on, settings_with_static, status_with, sync_status,
};
use crate::draft::Draft;
use crate::frame::Indicators;
use crate::history::{self, Happening};
use crate::plan::{Expected, Plan};
use crate::random::Random;
use crate::refusal::Refusal;
use crate::scene::{Kind, Scene};
use crate::script::Command;
use crate::settings::Settings;
use crate::status_numbers::StatusNumbers;

/// That of the slot in question.
const ID: u16 = 60;

/// The flags of frames in their order, a sync frame first. The others differ in a bit or in all of them, or in none.
const SYNC_FIRST: [&[u8]; 4] =
    [&[0b01100, 0b00100], &[0b01100, 0b01100], &[0b11100, 0b00011], &[0b01000, 0b00100, 0b11111]];

/// The same with another frame first.
const NO_SYNC_FIRST: [&[u8]; 3] = [&[0b00100, 0b01100], &[0b00100, 0b00110], &[0b00010, 0b11100, 0b01100]];

/// Marks and kept switch with which (f) isn't sound.
const UNSOUND: [(u8, bool); 7] = [(0, false), (2, false), (2, true), (16, true), (18, false), (26, true), (50, true)];

/// Correction 11, and delays of 30 on A and of 50 on B.
fn settings() -> Settings {
    late_settings(11, [30, 50])
}

/// A cycle and the observed time in it, the action point being 500; on A and B the deviation and the line of the closing;
/// and the rate that is stored then.
type Cycle = (u8, u32, [(i32, &'static str); 2], i32);

const CYCLES: [Cycle; 2] = [
    (24, 600, [(59, "close 0 59 0 0 0 0 0 1"), (39, "close 0 39 0 0 0 0 0 1")], 0),
    (25, 606, [(65, "close 0 65 6 0 0 0 0 1"), (45, "close 0 45 6 0 0 0 0 1")], 6),
];

pub fn add(plan: &mut Plan, random: &mut Random) {
    for channel in Channel::BOTH {
        for flags in SYNC_FIRST {
            add_cycles(plan, channel, |plan, cycle| arrive(plan, random, channel, cycle, flags));
        }
        for marks in [18, 58, 63] {
            add_cycles(plan, channel, |plan, cycle| put_with_f(plan, random, channel, cycle, marks));
        }
        add_unfit(plan, random, channel);
    }
}

/// Both cycles, in each of which one slot is measured that is as it was left.
fn add_cycles(plan: &mut Plan, channel: Channel, mut leave_slot: impl FnMut(&mut Plan, u8)) {
    let mut held = ClockNumbers { settings: settings(), ..ClockNumbers::default() };
    load(plan, settings());
    for (place, (cycle, observed, on, rate)) in CYCLES.into_iter().enumerate() {
        let (deviation, line) = on[usize::from(channel.number())];
        open(plan, cycle);
        leave_slot(plan, cycle);
        let times = Times { observed, action_point: 500 };
        plan.add(Command::Measure(times), Expected::Line(format!("measure 0 {deviation}")));
        held = ClockNumbers { open: true, cycle, ..held };
        held.lists[place] = list(&[row_on(ID, channel, deviation)]);
        show(plan, &held);
        close(plan, held.settings.mark, line);
        held = closed(&held, rate);
        show(plan, &held);
    }
}

fn slot_of(random: &mut Random, channel: Channel, cycle: u8) -> Scene {
    Scene { settings: settings_with_static(random, ID), channel, slot: ID, cycle, kind: Kind::Static }
}

fn good(random: &mut Random, slot: &Scene, flags: u8) -> Happening {
    Happening::Good(Draft { indicators: Indicators::from_flags(flags), ..slot.good(random) })
}

/// A slot in which good frames with these flags arrive.
fn arrive(plan: &mut Plan, random: &mut Random, channel: Channel, cycle: u8, flags: &[u8]) {
    let slot = slot_of(random, channel, cycle);
    let frames: Vec<Happening> = flags.iter().map(|flags| good(random, &slot, *flags)).collect();
    history::play_opened(plan, &slot, &frames);
}

/// A status with (f) that keeps a sync frame; another frame, which isn't one, comes behind it.
fn put_with_f(plan: &mut Plan, random: &mut Random, channel: Channel, cycle: u8, marks: u8) {
    let slot = slot_of(random, channel, cycle);
    let sync = doubled(status_with(slot.settings, channel, ID, cycle, 0b01100));
    let frame = good(random, &slot, 0b00100);
    history::play_put(plan, &StatusNumbers { marks, ..sync }, &[frame]);
}

/// No sync frame is kept, or the status isn't sound: nothing is listed, and what was listed before closes alone.
fn add_unfit(plan: &mut Plan, random: &mut Random, channel: Channel) {
    let held = open_at(settings(), 24, [list(&[row_on(9, channel, 7)]), list(&[])]);
    put(plan, &held);
    for flags in NO_SYNC_FIRST {
        arrive(plan, random, channel, 24, flags);
        refuse(plan, &held, Command::Measure(NO_TIME), Refusal::NoSyncFrame);
    }
    let slot = slot_of(random, channel, 24);
    let no_sync = doubled(status_with(slot.settings, channel, ID, 24, 0b00100));
    refuse_measure(plan, &held, &no_sync, Refusal::NoSyncFrame);
    for (marks, kept) in UNSOUND {
        let sound = doubled(sync_status(random, channel, ID, 24));
        refuse_measure(plan, &held, &StatusNumbers { marks, kept, ..sound }, Refusal::NotSound);
    }
    close(plan, held.settings.mark, "close 0 7 0 0 0 0 0 1");
    show(plan, &closed(&held, 0));
}
