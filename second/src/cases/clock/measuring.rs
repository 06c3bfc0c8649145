//! Measuring: the ends of both times and of the deviation, the causes of 20, and whose settings count.

use crate::channel::Channel;
use crate::clock::{Times, LATEST};
use crate::clock_faults::Unfit;
use crate::clock_history::{load, measure, open, put, refuse, refuse_measure, show};
use crate::clock_numbers::ClockNumbers;
use crate::clock_scene::{
    fair_clock, late_settings, open_at, row_on, settings_with_static, status_with, sync_status, wide_settings,
};
use crate::frame::{HIGHEST_CYCLE, HIGHEST_ID};
use crate::history;
use crate::plan::{Expected, Plan};
use crate::random::Random;
use crate::refusal::Refusal;
use crate::scene::{fair_settings, Kind, Scene};
use crate::script::Command;
use crate::settings::{
    self, Settings, DECODING_CORRECTION, DELAY_A, DELAY_B, FIELDS, HIGHEST_CORRECTION, HIGHEST_DELAY, OFFSET_LIMIT,
    RANGES, RATE_LIMIT, STATIC_SLOTS, STATIC_WORDS, SYNC_ID_LIMIT,
};
use crate::status_numbers::StatusNumbers;

const TIMES: [u32; 7] = [0, 1, LATEST - 1, LATEST, LATEST + 1, 0x8000_0000, u32::MAX];

pub fn add(plan: &mut Plan, random: &mut Random) {
    for channel in Channel::BOTH {
        add_times(plan, random, channel, late_settings(0, [0, 0]));
        add_times(plan, random, channel, late_settings(HIGHEST_CORRECTION, [HIGHEST_DELAY, HIGHEST_DELAY]));
        for unfit in Unfit::ALL {
            add_unfit(plan, random, channel, unfit);
        }
        add_fit_by_status(plan, random, channel);
        add_other_delays(plan, random, channel);
        add_arrived(plan, random, channel);
    }
    add_unsound_statuses(plan, random);
}

/// Every time at the ends of its range and beyond, with no delay at all and with the longest ones.
fn add_times(plan: &mut Plan, random: &mut Random, channel: Channel, settings: Settings) {
    let held = open_at(settings, 6, Default::default());
    let status = sync_status(random, channel, 77, 6);
    put(plan, &held);
    for observed in TIMES {
        for action_point in TIMES {
            let times = Times { observed, action_point };
            add_time(plan, &held, &status, times);
        }
    }
}

fn add_time(plan: &mut Plan, held: &ClockNumbers, status: &StatusNumbers, times: Times) {
    if times.observed > LATEST || times.action_point > LATEST {
        history::put(plan, status);
        return refuse(plan, held, Command::Measure(times), Refusal::Time);
    }
    let late = held.settings.signed(DECODING_CORRECTION) + held.settings.signed(DELAY_A);
    let deviation = i64::from(times.observed) - i64::from(times.action_point) - late;
    measure(plan, status, times, deviation);
    let mut after = *held;
    after.lists[0].count = 1;
    after.lists[0].rows[0] = row_on(status.header.id, status.channel, deviation as i32);
    show(plan, &after);
    put(plan, held);
}

/// Slot 300 is static with every clock state here; only the status's own settings say otherwise.
fn add_unfit(plan: &mut Plan, random: &mut Random, channel: Channel, unfit: Unfit) {
    let settings = settings_with_static(random, 300);
    let dynamic = settings.with_field(STATIC_SLOTS, 299);
    let opened = StatusNumbers { settings, channel, slot: 300, cycle: 6, ..StatusNumbers::default() };
    let statuses: Vec<StatusNumbers> = match unfit {
        Unfit::NoValidFrame => [0, 1, 4, 32, 41].map(|marks| StatusNumbers { marks, ..opened }).into(),
        Unfit::NotSync => [0, 1, 2, 4, 7].map(|flags| status_with(settings, channel, 300, 6, flags)).into(),
        Unfit::NotStatic => [4, 5, 6, 7].map(|flags| status_with(dynamic, channel, 300, 6, flags)).into(),
    };
    for status in statuses {
        let held = open_at(late_settings(20, [20, 20]), 6, Default::default());
        put(plan, &held);
        refuse_measure(plan, &held, &status, Refusal::NoSyncFrame);
    }
}

fn add_fit_by_status(plan: &mut Plan, random: &mut Random, channel: Channel) {
    let settings = wide_settings(false).with_field(STATIC_SLOTS, 299);
    put(plan, &open_at(settings, 6, Default::default()));
    measure(plan, &sync_status(random, channel, 300, 6), Times { observed: 8, action_point: 5 }, 3);
}

/// The clock state's correction and delay on this channel, and neither the other channel's nor any of the status's.
fn add_other_delays(plan: &mut Plan, random: &mut Random, channel: Channel) {
    let settings = late_settings(11, [30, 50]);
    let deviation = match channel {
        Channel::A => 59,
        Channel::B => 39,
    };
    let (fewest, most) = settings::ends(SYNC_ID_LIMIT);
    for limit in [fewest, most] {
        put(plan, &open_at(settings, 6, Default::default()));
        let fields = RANGES.map(|range| *range.end());
        let highest = Settings { fields, ..fair_settings(random) };
        let late = highest.with_field(DELAY_A, 200).with_field(DELAY_B, 100).with_field(SYNC_ID_LIMIT, limit);
        let of_status =
            [OFFSET_LIMIT, RATE_LIMIT, STATIC_WORDS].iter().fold(late, |all, field| all.with_field(*field, 0));
        let status = status_with(of_status, channel, 2, 6, 0b01000);
        measure(plan, &status, Times { observed: 600, action_point: 500 }, deviation);
    }
}

/// Slots that were really opened, in which frames arrive among other things.
fn add_arrived(plan: &mut Plan, random: &mut Random, channel: Channel) {
    load(plan, late_settings(0, [0, 0]));
    open(plan, 33);
    let mut held = open_at(late_settings(0, [0, 0]), 33, Default::default());
    for place in 0..6 {
        let slot = Scene { slot: 40 + place, cycle: 33, ..Scene::fair(random, channel, Kind::Static) };
        let settings = settings_with_static(random, slot.slot);
        let slot = Scene { settings, ..slot };
        let mut good = slot.good(random);
        good.indicators.sync = true;
        plan.add(slot.open(), Expected::line("slot 0 0"));
        plan.add(Command::OwnSending, Expected::line("event 0"));
        refuse(plan, &held, Command::Measure(Times { observed: 9, action_point: 2 }), Refusal::NoSyncFrame);
        plan.add(Command::Arrived(good.bytes()), Expected::line("event 0"));
        let later = slot.good(random);
        plan.add(Command::Arrived(later.bytes()), Expected::line("event 0"));
        plan.add(Command::Measure(Times { observed: 9, action_point: 2 }), Expected::line("measure 0 7"));
        held.lists[1].count += 1;
        held.lists[1].rows[usize::from(place)] = row_on(slot.slot, channel, 7);
        show(plan, &held);
    }
}

/// A status with one thing changed, so that it isn't sound, beside the sound one.
fn add_unsound_statuses(plan: &mut Plan, random: &mut Random) {
    for change in 0..UNSOUND_STATUSES {
        let held = ClockNumbers { open: true, cycle: 7, lists: Default::default(), ..fair_clock(random) };
        let channel = random.pick(&Channel::BOTH);
        let sound = sync_status(random, channel, 45, 7);
        put(plan, &held);
        let unsound = unsound_status(random, &sound, change);
        refuse_measure(plan, &held, &unsound, Refusal::NotSound);
        history::put(plan, &sound);
        plan.add(Command::Measure(Times { observed: 9, action_point: 2 }), Expected::Accepted);
    }
}

const UNSOUND_STATUSES: u8 = 19;

fn unsound_status(random: &mut Random, sound: &StatusNumbers, change: u8) -> StatusNumbers {
    let mut changed = *sound;
    match change {
        0 => changed.settings = sound.settings.with_field(random.between(1, FIELDS), u32::MAX),
        1 => changed.slot = 46,
        2 => changed.cycle = 8,
        3 => changed.marks = 0,
        4 => changed.kept = false,
        5 => changed.reason = 1,
        6 => changed.marks |= 2,
        7 => changed.marks |= 8,
        8 => changed.marks |= 32,
        9 => changed.header.checksum ^= 1,
        10 => changed.header.words ^= 1,
        11 => changed.header.cycle ^= HIGHEST_CYCLE + 1,
        12 => (changed.slot, changed.header.id) = (0, 0),
        13 => (changed.slot, changed.header.id) = (HIGHEST_ID + 1, HIGHEST_ID + 1),
        14 => (changed.cycle, changed.header.cycle) = (HIGHEST_CYCLE + 1, HIGHEST_CYCLE + 1),
        15 => changed.header.flags = 0b10100,
        // 02 C-18: checksums without "syntax error".
        16 => changed.checksums.found = 0x69F,
        17 => changed.checksums.expected = 0x69F,
        // The slot is dynamic then, where no sync frame can be kept.
        _ => changed.settings = sound.settings.with_field(STATIC_SLOTS, 44),
    }
    if (12..=15).contains(&change) {
        // So that the number is wrong by itself.
        changed.header = changed.header.with_right_checksum();
    }
    changed
}
