//! Clock states made for a case, and slot statuses to be measured with them.

use crate::channel::Channel;
use crate::checksum_pair::ChecksumPair;
use crate::clock_numbers::{ClockNumbers, ListNumbers, RowNumbers};
use crate::draft::fair_cycle;
use crate::frame::{HIGHEST_CYCLE, HIGHEST_ID};
use crate::marks::Mark;
use crate::random::Random;
use crate::reason::Reason;
use crate::scene::fair_settings;
use crate::settings::{
    self, Settings, DECODING_CORRECTION, DELAY_A, DELAY_B, FIELDS, MOST_STATIC_SLOTS, OFFSET_LIMIT, RATE_LIMIT,
    STATIC_SLOTS, STATIC_WORDS, SYNC_ID_LIMIT,
};
use crate::sheet_mark::{SheetMark, USUAL};
use crate::status_numbers::{HeaderNumbers, StatusNumbers};
use crate::sync_list::{DEVIATIONS, PLACES};

/// The highest ID that a sync frame can have, static slots going no further.
pub const HIGHEST_SYNC_ID: u16 = MOST_STATIC_SLOTS as u16;

const NOT_NULL: u8 = 0b00100;
const SYNC: u8 = 0b01000;

/// A sheet with everything at 0 that can be, limits as wide as can be, and the usual mark.
pub fn wide_settings(sends_sync: bool) -> Settings {
    let mut settings = Settings { fields: [0; FIELDS], sends_sync, mark: USUAL };
    for field in [SYNC_ID_LIMIT, OFFSET_LIMIT, RATE_LIMIT, STATIC_SLOTS] {
        settings = settings.with_field(field, settings::ends(field).1);
    }
    settings
}

/// Such a sheet of a node that sends no sync, with this decoding correction and these delays on A and B.
pub fn late_settings(correction: u32, [on_a, on_b]: [u32; 2]) -> Settings {
    wide_settings(false).with_field(DECODING_CORRECTION, correction).with_field(DELAY_A, on_a).with_field(DELAY_B, on_b)
}

/// What the last closed cycle was when a cycle was opened.
#[derive(Clone, Copy, Debug, PartialEq, Eq)]
pub enum Last {
    None,
    /// The cycle before, which is 63 before 0.
    Before,
    Same,
    Other,
}

impl Last {
    pub fn of(closed: Option<u8>, cycle: u8) -> Last {
        match closed {
            None => Last::None,
            Some(closed) if closed == cycle => Last::Same,
            Some(closed) if closed == (cycle + HIGHEST_CYCLE) % (HIGHEST_CYCLE + 1) => Last::Before,
            Some(_) => Last::Other,
        }
    }
}

/// A row under the usual mark, also where it isn't looked at.
pub fn row(id: u16, on_a: Option<i32>, on_b: Option<i32>) -> RowNumbers {
    let seen = u8::from(on_a.is_some()) + 2 * u8::from(on_b.is_some());
    RowNumbers { id, seen, deviations: [on_a.unwrap_or(0), on_b.unwrap_or(0)], pair: [USUAL; 2] }
}

pub fn row_on(id: u16, channel: Channel, deviation: i32) -> RowNumbers {
    match channel {
        Channel::A => row(id, Some(deviation), None),
        Channel::B => row(id, None, Some(deviation)),
    }
}

/// A list with these rows, and blank ones behind them.
pub fn list(rows: &[RowNumbers]) -> ListNumbers {
    let mut list = ListNumbers { count: rows.len() as u8, ..ListNumbers::default() };
    list.rows[..rows.len()].copy_from_slice(rows);
    list
}

/// A state in which this cycle is open, with the mark of the settings in its lists.
pub fn open_at(settings: Settings, cycle: u8, lists: [ListNumbers; 2]) -> ClockNumbers {
    ClockNumbers { settings, open: true, cycle, lists, ..ClockNumbers::default() }.marked()
}

/// The state that closing leaves of it.
pub fn closed(before: &ClockNumbers, rate: i32) -> ClockNumbers {
    ClockNumbers { open: false, cycle: 0, closed: true, last: before.cycle, rate, ..*before }
}

/// A sound state, everything else at random.
pub fn fair_clock(random: &mut Random) -> ClockNumbers {
    let settings = fair_settings(random);
    let limit = settings.field(SYNC_ID_LIMIT) as usize;
    let ids = some_ids(random, PLACES);
    let rate_limit = settings.field(RATE_LIMIT) as i32;
    let rate = random.between(0, 2 * rate_limit as usize) as i32 - rate_limit;
    ClockNumbers {
        settings,
        open: random.coin(),
        cycle: fair_cycle(random),
        closed: random.coin(),
        last: fair_cycle(random),
        rate,
        lists: [(); 2].map(|_| fair_list(random, limit, &ids)),
    }
    .marked()
}

/// A list of some of these IDs, with numbers in the rows behind them that nobody looks at.
fn fair_list(random: &mut Random, limit: usize, ids: &[u16]) -> ListNumbers {
    let mut ids = ids.to_vec();
    // As a rule in the order of the other list, so that many IDs stand in both.
    if random.one_in(4) {
        random.shuffle(&mut ids);
    }
    let mut list = ListNumbers { count: random.between(0, limit) as u8, ..ListNumbers::default() };
    for (row, id) in list.rows.iter_mut().zip(ids) {
        *row = fair_row(random, id);
    }
    list
}

/// Different IDs, a run of neighbours as a rule.
pub fn some_ids(random: &mut Random, count: usize) -> Vec<u16> {
    let highest = usize::from(if random.one_in(4) { HIGHEST_ID } else { HIGHEST_SYNC_ID });
    let step = if random.coin() { 1 } else { random.between(1, highest / PLACES) };
    let first = random.between(1, highest - step * (count - 1));
    let mut ids: Vec<u16> = (0..count).map(|place| (first + step * place) as u16).collect();
    random.shuffle(&mut ids);
    ids
}

fn fair_row(random: &mut Random, id: u16) -> RowNumbers {
    let seen = random.between(1, 3) as u8;
    let deviations = [(); 2].map(|_| fair_deviation(random));
    RowNumbers { id, seen, deviations, pair: [(); 2].map(|_| SheetMark::any(random)) }
}

/// Small as a rule, the ends of the range now and then.
fn fair_deviation(random: &mut Random) -> i32 {
    let (lowest, highest) = (*DEVIATIONS.start(), *DEVIATIONS.end());
    match random.below(16) {
        0 => random.pick(&[lowest, lowest + 1, highest - 1, highest]),
        1 => random.between(0, (highest - lowest) as usize) as i32 + lowest,
        2 | 3 => random.between(0, 40_000) as i32 - 20_000,
        _ => random.between(0, 200) as i32 - 100,
    }
}

/// Settings of a status, in range, with which this slot is static.
pub fn settings_with_static(random: &mut Random, slot: u16) -> Settings {
    let last = random.between(usize::from(slot.max(2)), HIGHEST_SYNC_ID.into());
    fair_settings(random).with_field(STATIC_SLOTS, last as u32)
}

/// A status that holds a sync frame.
pub fn sync_status(random: &mut Random, channel: Channel, id: u16, cycle: u8) -> StatusNumbers {
    let settings = settings_with_static(random, id);
    let spare = random.pick(&[0, 1, 2, 0b10000]);
    status_with(settings, channel, id, cycle, SYNC | NOT_NULL | spare)
}

/// A status that holds a frame with these flags, its words as field 10 asks for.
pub fn status_with(settings: Settings, channel: Channel, id: u16, cycle: u8, flags: u8) -> StatusNumbers {
    let words = settings.field(STATIC_WORDS) as u8;
    let header = HeaderNumbers { flags, id, words, checksum: 0, cycle }.with_right_checksum();
    let opened = StatusNumbers { settings, channel, slot: id, cycle, ..StatusNumbers::default() };
    StatusNumbers { marks: Mark::Valid.bit(), kept: true, header, ..opened }
}

/// 02 C-15: what a second good frame leaves of a status that holds one.
pub fn doubled(status: StatusNumbers) -> StatusNumbers {
    let marks = status.marks | Mark::ContentError.bit();
    StatusNumbers { marks, reason: Reason::SecondGoodFrame.number(), ..status }
}

/// 02 C-18: what a syntax error that told these checksums leaves of it.
pub fn behind_syntax_error(status: StatusNumbers, checksums: ChecksumPair) -> StatusNumbers {
    StatusNumbers { marks: status.marks | Mark::SyntaxError.bit(), checksums, ..status }
}

#[cfg(test)]
mod tests {
    use super::*;

    #[test]
    fn states_and_statuses_are_sound() {
        let mut random = Random::from_seed(7);
        for _ in 0..500 {
            let clock = fair_clock(&mut random);
            assert!(clock.state().is_sound(), "{clock:?}");
            let channel = random.pick(&Channel::BOTH);
            let id = random.between(1, HIGHEST_SYNC_ID.into()) as u16;
            let numbers = sync_status(&mut random, channel, id, clock.cycle);
            let behind = behind_syntax_error(numbers, ChecksumPair::any(&mut random));
            for status in [numbers, doubled(numbers), behind].map(|numbers| numbers.status()) {
                assert!(status.is_sound() && status.is_static());
            }
        }
        assert!(wide_settings(true).first_out_of_range().is_none());
    }
}
