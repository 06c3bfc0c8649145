//! Clock states with one clause of 01's soundness broken, each beside a sound one that differs in that clause alone. For
//! the clause of 02 C-17 there are more in `sheet_marks`.

use crate::channel::Channel;
use crate::clock::Times;
use crate::clock_history::{put, refuse_all, show};
use crate::clock_numbers::{ClockNumbers, ListNumbers};
use crate::clock_scene::{open_at, row, sync_status, wide_settings};
use crate::closing::Controls;
use crate::faults::WRONG_IDS;
use crate::frame::{HIGHEST_CYCLE, HIGHEST_ID};
use crate::history;
use crate::plan::{Expected, Plan};
use crate::random::Random;
use crate::script::Command;
use crate::settings::{self, FIELDS, HIGHEST_RATE_LIMIT, RATE_LIMIT, SYNC_ID_LIMIT};
use crate::sync_list::{DEVIATIONS, PLACES};

pub(super) struct Pair {
    pub sound: ClockNumbers,
    pub unsound: ClockNumbers,
}

/// The one ID that is measured: in the first place, and seen on A alone, unless a case has it elsewhere.
pub(super) const MEASURED: u16 = 100;

pub fn add(plan: &mut Plan, random: &mut Random) {
    let mut pairs: Vec<Pair> = (1..=FIELDS).flat_map(settings).collect();
    pairs.extend(cycles());
    pairs.extend(rates());
    for list in [0, 1] {
        pairs.extend(counts(list));
        pairs.extend(ids(list));
        pairs.extend(rows(list));
        pairs.extend(deviations(list));
    }
    for pair in &pairs {
        add_unsound(plan, random, pair);
        add_repaired(plan, random, pair);
    }
}

/// Every entry is refused and leaves the state as it was put. Without this refusal opening would give 19, and the others
/// would be accepted.
pub(super) fn add_unsound(plan: &mut Plan, random: &mut Random, pair: &Pair) {
    history::put(plan, &sync_status(random, Channel::B, MEASURED, pair.sound.cycle));
    put(plan, &pair.unsound);
    show(plan, &pair.unsound);
    refuse_all(plan, &pair.unsound);
}

pub(super) fn add_repaired(plan: &mut Plan, random: &mut Random, pair: &Pair) {
    put(plan, &pair.sound);
    history::put(plan, &sync_status(random, Channel::B, MEASURED, pair.sound.cycle));
    plan.add(Command::Measure(Times { observed: 70, action_point: 70 }), Expected::Accepted);
    plan.add(Command::Show, Expected::Anything);
    plan.add(Command::CloseCycle(Controls::NONE), Expected::Accepted);
    plan.add(Command::Show, Expected::Anything);
    // Closing changes these two, all else is still as it was put.
    if (pair.sound.last, pair.sound.rate) != (pair.unsound.last, pair.unsound.rate) {
        put(plan, &ClockNumbers { open: false, ..pair.sound });
    }
    plan.add(Command::OpenCycle(pair.sound.cycle), Expected::Accepted);
    plan.add(Command::Show, Expected::Anything);
}

/// Fifteen good rows, of which so many are listed.
fn good_list(count: u8) -> ListNumbers {
    let mut list = ListNumbers { count, ..ListNumbers::default() };
    for (place, row_of) in list.rows.iter_mut().enumerate() {
        *row_of = row(MEASURED + place as u16, Some(place as i32), (place % 2 == 1).then_some(-2));
    }
    list
}

fn good(count: u8) -> ClockNumbers {
    open_at(wide_settings(true), 5, [good_list(count); 2])
}

fn settings(field: usize) -> Vec<Pair> {
    let pair = |(wrong, right)| {
        let sound = ClockNumbers { settings: wide_settings(false).with_field(field, right), ..good(1) };
        let unsound = ClockNumbers { settings: sound.settings.with_field(field, wrong), ..sound };
        Pair { sound, unsound }
    };
    settings::beyond(field).into_iter().map(pair).collect()
}

fn cycles() -> Vec<Pair> {
    let mut pairs = Vec::new();
    for wrong in [HIGHEST_CYCLE + 1, HIGHEST_CYCLE + 2, 128, u8::MAX] {
        let sound = ClockNumbers { cycle: HIGHEST_CYCLE, ..good(3) };
        let unsound = ClockNumbers { cycle: wrong, ..sound };
        pairs.push(Pair { sound, unsound });
        let sound = ClockNumbers { closed: true, last: HIGHEST_CYCLE, ..good(3) };
        let unsound = ClockNumbers { last: wrong, ..sound };
        pairs.push(Pair { sound, unsound });
    }
    pairs
}

fn rates() -> Vec<Pair> {
    let mut pairs = Vec::new();
    for limit in [0, 1, HIGHEST_RATE_LIMIT as i32] {
        for (right, beyond) in [(limit, [limit + 1, i32::MAX]), (-limit, [-limit - 1, i32::MIN])] {
            let settings = wide_settings(false).with_field(RATE_LIMIT, limit as u32);
            let sound = ClockNumbers { settings, rate: right, ..good(3) };
            let wrong = |rate| Pair { sound, unsound: ClockNumbers { rate, ..sound } };
            pairs.extend(beyond.map(wrong));
        }
    }
    pairs
}

/// The state with another list in one of the two places.
fn with_list(clock: &ClockNumbers, place: usize, list: ListNumbers) -> ClockNumbers {
    let mut with = *clock;
    with.lists[place] = list;
    with
}

const MOST: u8 = PLACES as u8;

/// As many as the limit, and one more; the rows are good ones in any case.
fn counts(place: usize) -> Vec<Pair> {
    let mut pairs = Vec::new();
    for (limit, wrong) in
        [(2, 3), (3, 4), (MOST - 1, MOST), (MOST, MOST + 1), (MOST, MOST + 2), (MOST, 128), (MOST, 255), (2, 255)]
    {
        let settings = wide_settings(false).with_field(SYNC_ID_LIMIT, limit.into());
        let sound = with_list(&ClockNumbers { settings, ..good(1) }, place, good_list(limit));
        let unsound = with_list(&sound, place, good_list(wrong));
        pairs.push(Pair { sound, unsound });
    }
    pairs
}

/// At the ends of their range, in the second place and in the last one.
fn ids(place: usize) -> Vec<Pair> {
    let mut pairs = Vec::new();
    for at in [1, PLACES - 1] {
        for (right, wrong) in WRONG_IDS.map(|wrong| (wrong.clamp(1, HIGHEST_ID), wrong)) {
            let with = |id| {
                let mut list = good_list(PLACES as u8);
                list.rows[at].id = id;
                with_list(&good(3), place, list)
            };
            pairs.push(Pair { sound: with(right), unsound: with(wrong) });
        }
    }
    pairs
}

/// Two rows of one ID, also where they are seen on different channels, and a row seen on none.
fn rows(place: usize) -> Vec<Pair> {
    let mut pairs = Vec::new();
    for first in 1..4 {
        for second in 1..4 {
            let with = |id| {
                let mut list = good_list(4);
                list.rows[1].seen = first;
                list.rows[3].seen = second;
                list.rows[3].id = id;
                with_list(&good(3), place, list)
            };
            pairs.push(Pair { sound: with(999), unsound: with(MEASURED + 1) });
        }
    }
    for at in [1, PLACES - 1] {
        let with = |seen| {
            let mut list = good_list(PLACES as u8);
            list.rows[at].seen = seen;
            with_list(&good(3), place, list)
        };
        pairs.push(Pair { sound: with(2), unsound: with(0) });
        // Bits that are not looked at don't help.
        pairs.push(Pair { sound: with(0b1111_1101), unsound: with(0b1111_1100) });
    }
    pairs
}

fn deviations(place: usize) -> Vec<Pair> {
    let (lowest, highest) = (*DEVIATIONS.start(), *DEVIATIONS.end());
    let beyond = [highest + 1, i32::MAX, lowest - 1, i32::MIN].map(|wrong| (wrong.clamp(lowest, highest), wrong));
    let mut pairs = Vec::new();
    for channel in Channel::BOTH {
        for (right, wrong) in beyond {
            let with = |deviation| {
                let mut list = good_list(2);
                list.rows[1].seen = 3;
                list.rows[1].deviations[usize::from(channel.number())] = deviation;
                with_list(&good(3), place, list)
            };
            pairs.push(Pair { sound: with(right), unsound: with(wrong) });
        }
    }
    pairs
}
