//! What closing a cycle finds: both terms and their flags by 01 "Clock".

use std::ops::RangeInclusive;

use crate::clock::{list_of, ClockState};
use crate::correction::{halved, Found};
use crate::settings::{Settings, DRIFT_DAMPING, EXTERNAL_OFFSET_UNIT, EXTERNAL_RATE_UNIT, OFFSET_LIMIT, RATE_LIMIT};
use crate::sheet_mark::SheetMark;
use crate::sync_list::{Measurement, Sighting, SyncList};

/// The external controls, one for each term.
#[derive(Clone, Copy, Debug, PartialEq, Eq, PartialOrd, Ord)]
pub struct Controls {
    pub offset: i8,
    pub rate: i8,
}

/// What an external control can be.
pub const CONTROLS: RangeInclusive<i8> = -1..=1;

impl Controls {
    pub const NONE: Controls = Controls { offset: 0, rate: 0 };

    pub fn are_known(self) -> bool {
        [self.offset, self.rate].iter().all(|control| CONTROLS.contains(control))
    }
}

#[derive(Clone, Debug, PartialEq, Eq)]
pub struct Closing {
    pub cycle: u8,
    pub controls: Controls,
    /// The deviations of each ID in the closed cycle.
    pub deviations: Vec<Vec<i64>>,
    /// Odd minus even of each ID that has both on a channel; empty in even cycles.
    pub differences: Vec<Vec<i64>>,
    /// None where the offset is missing.
    pub offset: Option<Found>,
    /// None where the rate is missing, and in even cycles.
    pub rate: Option<Found>,
    pub offset_term: i64,
    pub rate_term: i64,
    /// 02 C-17: that of the sheet by which all this was worked out.
    pub mark: SheetMark,
}

impl Closing {
    /// What closing the open cycle finds in a sound state.
    pub fn of(state: &ClockState, cycle: u8, controls: Controls) -> Closing {
        let settings = &state.settings;
        let stored = i64::from(state.stored_rate);
        let deviations: Vec<Vec<i64>> = state.lists[list_of(cycle)].sightings.iter().map(deviations_of).collect();
        let differences = if cycle % 2 == 1 { differences(&state.lists) } else { Vec::new() };
        let offset = offset(settings, &deviations);
        let rate = rate(settings, stored, &differences);
        let offset_term = offset.as_ref().map_or(0, Found::within_limit);
        let rate_term = rate.as_ref().map_or(stored, Found::within_limit);
        Closing {
            cycle,
            controls,
            deviations,
            differences,
            offset,
            rate,
            // The external term comes last: it is neither limited nor stored.
            offset_term: offset_term + i64::from(controls.offset) * settings.signed(EXTERNAL_OFFSET_UNIT),
            rate_term: rate_term + i64::from(controls.rate) * settings.signed(EXTERNAL_RATE_UNIT),
            mark: settings.mark,
        }
    }

    pub fn rate_to_store(&self) -> Option<i64> {
        self.rate.as_ref().map(Found::within_limit)
    }

    /// Offset missing, rate missing, offset limited, rate limited.
    pub fn flags(&self) -> [bool; 4] {
        let limited = |found: &Option<Found>| found.as_ref().is_some_and(Found::is_limited);
        let rate_missing = self.cycle % 2 == 1 && self.rate.is_none();
        [self.offset.is_none(), rate_missing, limited(&self.offset), limited(&self.rate)]
    }

    /// The numbers behind that of the answer.
    pub fn numbers(&self) -> String {
        let flags = self.flags().map(|flag| u8::from(flag).to_string()).join(" ");
        format!("{} {} {flags} {} {}", self.offset_term, self.rate_term, self.deviations.len(), self.mark)
    }
}

fn deviations_of(sighting: &Sighting) -> Vec<i64> {
    sighting.measurements.values().map(|measurement| i64::from(measurement.deviation)).collect()
}

fn offset(settings: &Settings, deviations: &[Vec<i64>]) -> Option<Found> {
    let smaller = deviations.iter().filter_map(|of_id| of_id.iter().min().copied());
    let values = with_own_zero(settings, smaller.collect())?;
    Some(Found::offset(values, settings.signed(OFFSET_LIMIT)))
}

fn rate(settings: &Settings, stored: i64, differences: &[Vec<i64>]) -> Option<Found> {
    let of_ids = differences.iter().map(|of_id| mean(of_id));
    let values = with_own_zero(settings, of_ids.collect())?;
    Some(Found::rate(values, stored, settings.signed(DRIFT_DAMPING), settings.signed(RATE_LIMIT)))
}

/// A node that sends sync frames counts itself as one that is on time, once there is another one.
fn with_own_zero(settings: &Settings, mut values: Vec<i64>) -> Option<Vec<i64>> {
    if values.is_empty() {
        return None;
    }
    values.extend(settings.sends_sync.then_some(0));
    Some(values)
}

/// A difference alone, or half the sum of two.
fn mean(differences: &[i64]) -> i64 {
    match differences {
        [one] => *one,
        _ => halved(differences.iter().sum()),
    }
}

fn differences(lists: &[SyncList; 2]) -> Vec<Vec<i64>> {
    let [even, odd] = lists;
    let of_ids = odd.sightings.iter().filter_map(|later| Some(pairs(even.of(later.id)?, later)));
    of_ids.filter(|of_id| !of_id.is_empty()).collect()
}

/// Odd minus even on each channel that has both.
fn pairs(earlier: &Sighting, later: &Sighting) -> Vec<i64> {
    let on_channel = |(channel, odd): (_, &Measurement)| {
        let even = earlier.measurements.get(channel)?;
        Some(i64::from(odd.deviation) - i64::from(even.deviation))
    };
    later.measurements.iter().filter_map(on_channel).collect()
}
