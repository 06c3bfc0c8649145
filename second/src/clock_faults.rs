//! Clock commands in which the asked-for refusals have their cause, with the states that they are given on.

use crate::channel::Channel;
use crate::checksum_pair::ChecksumPair;
use crate::clock::{Times, LATEST};
use crate::clock_numbers::{ClockNumbers, ListNumbers};
use crate::clock_scene::{fair_clock, row_on, settings_with_static, status_with, sync_status, HIGHEST_SYNC_ID};
use crate::closing::Controls;
use crate::draft::fair_cycle;
use crate::faults::{wrong_cycle, wrong_value};
use crate::frame::{HIGHEST_CYCLE, HIGHEST_ID};
use crate::random::Random;
use crate::refusal::Refusal;
use crate::script::Command;
use crate::settings::{FIELDS, RATE_LIMIT, STATIC_SLOTS, SYNC_ID_LIMIT};
use crate::status_numbers::StatusNumbers;
use crate::sync_list::{DEVIATIONS, PLACES};

/// The three causes of refusal 20.
#[derive(Clone, Copy, Debug, PartialEq, Eq)]
pub enum Unfit {
    NoValidFrame,
    NotSync,
    /// By the status's settings; the clock state's call the slot static.
    NotStatic,
}

impl Unfit {
    pub const ALL: [Unfit; 3] = [Unfit::NoValidFrame, Unfit::NotSync, Unfit::NotStatic];
}

pub struct Faulty {
    pub clock: ClockNumbers,
    pub status: Option<StatusNumbers>,
    pub command: Command,
}

pub fn faulty_open(random: &mut Random, faults: &[Refusal]) -> Faulty {
    let open = faults.contains(&Refusal::CycleOpenAlready);
    let clock = ClockNumbers { open, ..fair_clock(random) };
    let cycle = if faults.contains(&Refusal::Cycle) { wrong_cycle(random) } else { fair_cycle(random) };
    let clock = if faults.contains(&Refusal::NotSound) { unsound(random, clock) } else { clock };
    Faulty { clock, status: None, command: Command::OpenCycle(cycle) }
}

pub fn faulty_close(random: &mut Random, faults: &[Refusal]) -> Faulty {
    let open = !faults.contains(&Refusal::NoCycleOpen);
    let clock = ClockNumbers { open, ..fair_clock(random) };
    let controls = if faults.contains(&Refusal::Control) { wrong_controls(random) } else { fair_controls(random) };
    let clock = if faults.contains(&Refusal::NotSound) { unsound(random, clock) } else { clock };
    Faulty { clock, status: None, command: Command::CloseCycle(controls) }
}

pub fn fair_controls(random: &mut Random) -> Controls {
    Controls { offset: random.pick(&[-1, 0, 1]), rate: random.pick(&[-1, 0, 1]) }
}

/// One of the two is wrong, or both are.
pub fn wrong_controls(random: &mut Random) -> Controls {
    let wrong = random.pick(&[-128, -2, 2, 127, 3, -3]);
    let fair = fair_controls(random);
    match random.below(3) {
        0 => Controls { offset: wrong, ..fair },
        1 => Controls { rate: wrong, ..fair },
        _ => Controls { offset: wrong, rate: -wrong.max(-127) },
    }
}

pub fn faulty_measure(random: &mut Random, faults: &[Refusal]) -> Faulty {
    let has = |refusal| faults.contains(&refusal);
    let channel = random.pick(&Channel::BOTH);
    let mut clock = with_room(ClockNumbers { open: !has(Refusal::NoCycleOpen), ..fair_clock(random) });
    let id = unlisted_id(random, &clock);
    if has(Refusal::MeasuredAlready) {
        clock.lists.iter_mut().for_each(|list| list.rows[0] = row_on(id, channel, 5));
    }
    if has(Refusal::ListFull) {
        let limit = clock.settings.field(SYNC_ID_LIMIT) as u8;
        clock.lists.iter_mut().for_each(|list| list.count = limit);
    }
    clock = clock.marked();
    let cycle = if has(Refusal::OtherCycle) { other_cycle(random, clock.cycle) } else { clock.cycle };
    let status = match has(Refusal::NoSyncFrame) {
        true => unfit_status(random, channel, id, cycle, faults),
        false => sync_status(random, channel, id, cycle),
    };
    let times = if has(Refusal::Time) { wrong_times(random) } else { fair_times(random) };
    let (clock, status) = if has(Refusal::NotSound) { one_unsound(random, clock, status) } else { (clock, status) };
    Faulty { clock, status: Some(status), command: Command::Measure(times) }
}

/// Both lists with one ID or a few, so that there is room.
fn with_room(clock: ClockNumbers) -> ClockNumbers {
    let mut with_room = clock;
    let limit = clock.settings.field(SYNC_ID_LIMIT) as u8;
    with_room.lists.iter_mut().for_each(|list| list.count = list.count.clamp(1, limit - 1));
    with_room.marked()
}

/// An ID that a sync frame can have and that stands in no row.
fn unlisted_id(random: &mut Random, clock: &ClockNumbers) -> u16 {
    let rows: Vec<u16> = clock.lists.iter().flat_map(|list| list.rows).map(|row| row.id).collect();
    let free: Vec<u16> = (1..=HIGHEST_SYNC_ID).filter(|id| !rows.contains(id)).collect();
    random.pick(&free)
}

/// A frame without a cause for 22, 16 or 15 behind it can also be none at all.
fn unfit_status(random: &mut Random, channel: Channel, id: u16, cycle: u8, faults: &[Refusal]) -> StatusNumbers {
    let settings = settings_with_static(random, id);
    let later = [Refusal::OtherCycle, Refusal::MeasuredAlready, Refusal::ListFull];
    let frame_needed = later.iter().any(|refusal| faults.contains(refusal));
    let unfit = random.pick(&Unfit::ALL);
    match unfit {
        Unfit::NoValidFrame if !frame_needed => {
            StatusNumbers { settings, channel, slot: id, cycle, ..StatusNumbers::default() }
        }
        Unfit::NotStatic if id > 2 => {
            let dynamic = settings.with_field(STATIC_SLOTS, u32::from(id) - 1);
            status_with(dynamic, channel, id, cycle, 0b00100)
        }
        _ => status_with(settings, channel, id, cycle, 0b00100),
    }
}

/// Another cycle, also one with the same list.
fn other_cycle(random: &mut Random, cycle: u8) -> u8 {
    let step = random.pick(&[1, 2, 32, HIGHEST_CYCLE]);
    (cycle + step) % (HIGHEST_CYCLE + 1)
}

/// 002 B.4.15: the longest cycle, in microticks, after which a counter that runs on is in the second one. Before 02 C-12
/// no time was later.
pub const LONGEST_CYCLE: u32 = 1_280_000;

pub fn fair_times(random: &mut Random) -> Times {
    let action_point = random.between(1_000, LATEST as usize - 1_000) as u32;
    match random.below(8) {
        0 => Times { observed: random.pick(&[0, 1, LATEST]), action_point: random.pick(&[0, LATEST - 1, LATEST]) },
        1 => Times { observed: random.between(0, LATEST as usize) as u32, action_point },
        2 => Times { observed: between_cycles(random), action_point: between_cycles(random) },
        _ => Times { observed: action_point + random.below(1_000) as u32 - 300, action_point },
    }
}

/// A time at the end of the first cycle or at the beginning of the second.
fn between_cycles(random: &mut Random) -> u32 {
    LONGEST_CYCLE + random.below(1_000) as u32 - 500
}

pub fn wrong_times(random: &mut Random) -> Times {
    let fair = fair_times(random);
    let wrong = random.pick(&[LATEST + 1, LATEST + 2, 0x8000_0000, u32::MAX]);
    match random.below(3) {
        0 => Times { observed: wrong, ..fair },
        1 => Times { action_point: wrong, ..fair },
        _ => Times { observed: wrong, action_point: wrong },
    }
}

fn one_unsound(random: &mut Random, clock: ClockNumbers, status: StatusNumbers) -> (ClockNumbers, StatusNumbers) {
    match random.below(4) {
        0 | 1 => (unsound(random, clock), status),
        // "Conflict" without own sending.
        2 => (clock, StatusNumbers { marks: status.marks ^ 8, ..status }),
        // 02 C-18: checksums without "syntax error".
        _ => (clock, StatusNumbers { checksums: ChecksumPair::some(random), ..status }),
    }
}

/// The state with one thing wrong; a list is made to hold something where the cause asks for it.
pub fn unsound(random: &mut Random, sound: ClockNumbers) -> ClockNumbers {
    let mut clock = sound;
    let place = random.below(2);
    let limit = clock.settings.field(SYNC_ID_LIMIT) as u8;
    let rate_limit = clock.settings.field(RATE_LIMIT) as i32;
    match random.below(12) {
        0 => {
            let field = random.between(1, FIELDS);
            clock.settings = clock.settings.with_field(field, wrong_value(random, field));
        }
        1 if clock.open => clock.cycle = wrong_cycle(random),
        2 => (clock.closed, clock.last) = (true, wrong_cycle(random)),
        3 => clock.rate = random.pick(&[rate_limit + 1, -rate_limit - 1, i32::MIN, i32::MAX]),
        4 => clock.lists[place].count = random.pick(&[limit + 1, PLACES as u8 + 1, 128, 255]),
        5..=8 => spoil_row(random, &mut clock.lists[place]),
        _ => return wrongly_marked(random, sound),
    }
    // Rows that are listed now have the right mark.
    clock.marked()
}

/// 02 C-17: one measurement with another mark than the settings', or all of them.
pub fn wrongly_marked(random: &mut Random, sound: ClockNumbers) -> ClockNumbers {
    let mut clock = sound;
    let place = random.below(2);
    clock.lists[place].count = clock.lists[place].count.max(1);
    let mut clock = clock.marked();
    if random.one_in(3) {
        clock.settings.mark = clock.settings.mark.other(random);
        return clock;
    }
    let at = random.below(clock.lists[place].count.into());
    let row = &mut clock.lists[place].rows[at];
    let seen: Vec<Channel> = Channel::BOTH.into_iter().filter(|channel| row.is_seen_on(*channel)).collect();
    let mark = &mut row.pair[usize::from(random.pick(&seen).number())];
    *mark = mark.other(random);
    clock
}

fn spoil_row(random: &mut Random, list: &mut ListNumbers) {
    list.count = list.count.max(2);
    let place = random.below(list.listed().len());
    let other = list.rows[(place + 1) % list.listed().len()].id;
    let row = &mut list.rows[place];
    match random.below(4) {
        0 => row.id = random.pick(&[0, HIGHEST_ID + 1, HIGHEST_ID + 2, u16::MAX]),
        1 => row.id = other,
        2 => row.seen &= 0b1111_1100,
        _ => {
            let (lowest, highest) = (*DEVIATIONS.start(), *DEVIATIONS.end());
            row.seen |= 3;
            row.deviations[random.below(2)] = random.pick(&[lowest - 1, highest + 1, i32::MIN, i32::MAX]);
        }
    }
}

#[cfg(test)]
mod tests {
    use super::*;

    #[test]
    fn states_are_spoilt() {
        let mut random = Random::from_seed(11);
        for _ in 0..2_000 {
            let sound = fair_clock(&mut random);
            assert!(!unsound(&mut random, sound).state().is_sound());
        }
    }

    /// 02 C-12: both numbers up to 2,560,000 and on both sides of 1,280,000; one that is wrong beside one that is right.
    #[test]
    fn times_on_both_sides_of_the_limit() {
        let mut random = Random::from_seed(12);
        let fair: Vec<Times> = (0..2_000).map(|_| fair_times(&mut random)).collect();
        let wrong: Vec<Times> = (0..2_000).map(|_| wrong_times(&mut random)).collect();
        let both = |times: &Times| [times.observed, times.action_point];
        assert!(fair.iter().flat_map(both).all(|time| time <= 2_560_000));
        for number in [0, 1] {
            assert!(fair.iter().any(|times| both(times)[number] == 2_560_000));
            assert!(fair.iter().any(|times| both(times)[number] > 1_280_000 && both(times)[1 - number] <= 1_280_000));
            assert!(wrong.iter().any(|times| both(times)[number] == 2_560_001 && both(times)[1 - number] <= 2_560_000));
        }
        assert!(wrong.iter().all(|times| times.observed.max(times.action_point) > 2_560_000));
    }
}
