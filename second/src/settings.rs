//! The settings sheet and its ranges by 01 "Settings sheet".

use std::ops::RangeInclusive;

use crate::frame::MOST_WORDS;
use crate::sheet_mark::SheetMark;
use crate::sync_list::PLACES;

pub const FIELDS: usize = 11;

/// Fields 1 to 9, all of them about the clock.
pub const DECODING_CORRECTION: usize = 1;
pub const DELAY_A: usize = 2;
pub const DELAY_B: usize = 3;
pub const SYNC_ID_LIMIT: usize = 4;
pub const OFFSET_LIMIT: usize = 5;
pub const RATE_LIMIT: usize = 6;
pub const DRIFT_DAMPING: usize = 7;
pub const EXTERNAL_OFFSET_UNIT: usize = 8;
pub const EXTERNAL_RATE_UNIT: usize = 9;

/// Field 10: the words that every frame of a static slot has.
pub const STATIC_WORDS: usize = 10;

/// Field 11: the last static slot.
pub const STATIC_SLOTS: usize = 11;

pub const HIGHEST_CORRECTION: u32 = 255;
pub const HIGHEST_DELAY: u32 = 255;
pub const FEWEST_SYNC_IDS: u32 = 2;
pub const HIGHEST_OFFSET_LIMIT: u32 = 20_000;
pub const HIGHEST_RATE_LIMIT: u32 = 4_000;
pub const HIGHEST_DAMPING: u32 = 20;
pub const HIGHEST_UNIT: u32 = 31;
pub const FEWEST_STATIC_SLOTS: u32 = 2;
pub const MOST_STATIC_SLOTS: u32 = 1023;

/// 01 "Settings sheet": lowest and highest value of each field, field 1 first.
pub const RANGES: [RangeInclusive<u32>; FIELDS] = [
    0..=HIGHEST_CORRECTION,
    0..=HIGHEST_DELAY,
    0..=HIGHEST_DELAY,
    FEWEST_SYNC_IDS..=PLACES as u32,
    0..=HIGHEST_OFFSET_LIMIT,
    0..=HIGHEST_RATE_LIMIT,
    0..=HIGHEST_DAMPING,
    0..=HIGHEST_UNIT,
    0..=HIGHEST_UNIT,
    0..=MOST_WORDS as u32,
    FEWEST_STATIC_SLOTS..=MOST_STATIC_SLOTS,
];

/// Lowest and highest value of a field by its number.
pub fn ends(field: usize) -> (u32, u32) {
    let range = &RANGES[field - 1];
    (*range.start(), *range.end())
}

/// Values out of a field's range, those beside it and the highest of all, each with the end of the range that is nearest.
pub fn beyond(field: usize) -> Vec<(u32, u32)> {
    let (lowest, highest) = ends(field);
    let below = lowest.checked_sub(1).map(|value| (value, lowest));
    below.into_iter().chain([(highest + 1, highest), (u32::MAX, highest)]).collect()
}

#[derive(Clone, Copy, Debug, Default, PartialEq, Eq)]
pub struct Settings {
    pub fields: [u32; FIELDS],
    pub sends_sync: bool,
    /// 02 C-17: says which sheet this is; `numbers` leaves it out, as it stands at the end of an item or line.
    pub mark: SheetMark,
}

impl Settings {
    /// A field by its number, counted from 1 as 01 does.
    pub fn field(&self, number: usize) -> u32 {
        self.fields[number - 1]
    }

    /// The same for a sum with a sign.
    pub fn signed(&self, number: usize) -> i64 {
        self.field(number).into()
    }

    pub fn with_field(mut self, number: usize, value: u32) -> Settings {
        self.fields[number - 1] = value;
        self
    }

    pub fn with_mark(self, mark: SheetMark) -> Settings {
        Settings { mark, ..self }
    }

    /// The fields and the switch, as `D` shows them.
    pub fn numbers(&self) -> String {
        let fields = self.fields.map(|value| value.to_string()).join(" ");
        format!("{fields} {}", u8::from(self.sends_sync))
    }

    /// The numbers of the fields that are out of their range.
    pub fn out_of_range(&self) -> Vec<usize> {
        (1..=FIELDS).filter(|field| !RANGES[field - 1].contains(&self.field(*field))).collect()
    }

    pub fn first_out_of_range(&self) -> Option<usize> {
        self.out_of_range().first().copied()
    }
}

#[cfg(test)]
mod tests {
    use super::*;

    /// The table of 01 once more, by field number.
    const ENDS: [(usize, u32, u32); FIELDS] = [
        (1, 0, 255),
        (2, 0, 255),
        (3, 0, 255),
        (4, 2, 15),
        (5, 0, 20000),
        (6, 0, 4000),
        (7, 0, 20),
        (8, 0, 31),
        (9, 0, 31),
        (10, 0, 127),
        (11, 2, 1023),
    ];

    fn lowest() -> Settings {
        Settings { fields: ENDS.map(|(_, lowest, _)| lowest), ..Settings::default() }
    }

    /// 02 C-17: under whatever mark.
    #[test]
    fn the_ends_of_every_range_are_taken_and_nothing_beyond() {
        for (field, lowest_value, highest_value) in ENDS {
            for mark in [0, 1, 2, u32::MAX].map(SheetMark) {
                let with = |value| lowest().with_mark(mark).with_field(field, value).first_out_of_range();
                assert_eq!((with(lowest_value), with(highest_value)), (None, None));
                assert_eq!((with(highest_value + 1), with(u32::MAX)), (Some(field), Some(field)));
                let below = lowest_value.checked_sub(1);
                assert_eq!(below.and_then(with), below.map(|_| field));
            }
        }
    }

    #[test]
    fn the_first_of_several_fields_is_told() {
        for (first, _, highest) in ENDS {
            let later = (first..=FIELDS).fold(lowest(), |settings, field| settings.with_field(field, u32::MAX));
            assert_eq!(later.with_field(first, highest + 1).first_out_of_range(), Some(first));
        }
        assert_eq!(Settings::default().first_out_of_range(), Some(4));
    }
}
