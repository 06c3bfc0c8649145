//! What was measured in one cycle: IDs in the order of their first measurement (01 "Clock").

use std::collections::{BTreeMap, BTreeSet};
use std::ops::RangeInclusive;

use crate::channel::Channel;
use crate::clock::LATEST;
use crate::frame::HIGHEST_ID;
use crate::settings::{HIGHEST_CORRECTION, HIGHEST_DELAY};
use crate::sheet_mark::SheetMark;

/// The most different IDs that a list has places for, the highest value of field 4.
pub const PLACES: usize = 15;

/// 01 "Clock" with 02 C-12: the range of a deviation, in microticks: the latest action point with nothing observed until
/// then and the longest correction and delay, and the latest time with none of them.
pub const DEVIATIONS: RangeInclusive<i32> = -((LATEST + HIGHEST_CORRECTION + HIGHEST_DELAY) as i32)..=LATEST as i32;

/// 02 C-17: a deviation, and the mark of the sheet under which it was measured.
#[derive(Clone, Copy, Debug, PartialEq, Eq)]
pub struct Measurement {
    pub deviation: i32,
    pub mark: SheetMark,
}

impl Measurement {
    fn is_sound(&self, mark: SheetMark) -> bool {
        DEVIATIONS.contains(&self.deviation) && self.mark == mark
    }
}

/// One ID with its measurements. Only a list that was put can have an ID without any.
#[derive(Clone, Debug, Default, PartialEq, Eq)]
pub struct Sighting {
    pub id: u16,
    pub measurements: BTreeMap<Channel, Measurement>,
}

impl Sighting {
    fn is_sound(&self, mark: SheetMark) -> bool {
        (1..=HIGHEST_ID).contains(&self.id)
            && !self.measurements.is_empty()
            && self.measurements.values().all(|measurement| measurement.is_sound(mark))
    }
}

#[derive(Clone, Debug, Default, PartialEq, Eq)]
pub struct SyncList {
    pub sightings: Vec<Sighting>,
    /// How far a count that was put goes beyond the places; such a list isn't sound and never changes.
    pub unplaced: u8,
}

impl SyncList {
    /// The count as it stands.
    pub fn count(&self) -> u8 {
        self.sightings.len() as u8 + self.unplaced
    }

    pub fn of(&self, id: u16) -> Option<&Sighting> {
        self.sightings.iter().find(|sighting| sighting.id == id)
    }

    pub fn has(&self, id: u16, channel: Channel) -> bool {
        self.of(id).is_some_and(|sighting| sighting.measurements.contains_key(&channel))
    }

    /// A new ID comes last.
    pub fn with(&self, id: u16, channel: Channel, measurement: Measurement) -> SyncList {
        let mut sightings = self.sightings.clone();
        let place = sightings.iter().position(|sighting| sighting.id == id).unwrap_or(sightings.len());
        if place == sightings.len() {
            sightings.push(Sighting { id, ..Sighting::default() });
        }
        sightings[place].measurements.insert(channel, measurement);
        SyncList { sightings, unplaced: self.unplaced }
    }

    /// 01 "Refusal numbers" and 02 C-17: at most field 4 different IDs, each 1 to 2047 and once per channel, deviations in
    /// range, and all of them with the mark of the sheet.
    pub fn is_sound(&self, limit: u32, mark: SheetMark) -> bool {
        let different: BTreeSet<u16> = self.sightings.iter().map(|sighting| sighting.id).collect();
        u32::from(self.count()) <= limit
            && different.len() == usize::from(self.count())
            && self.sightings.iter().all(|sighting| sighting.is_sound(mark))
    }
}
