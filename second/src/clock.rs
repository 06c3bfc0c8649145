//! The clock by 01 "Clock" and "Refusal numbers": cycles opened and closed, sync frames measured between.

use crate::channel::Channel;
use crate::closing::{Closing, Controls};
use crate::frame::{Fields, HIGHEST_CYCLE};
use crate::refusal::{holding, refuse_first, Refusal};
use crate::settings::{Settings, DECODING_CORRECTION, DELAY_A, DELAY_B, RATE_LIMIT, SYNC_ID_LIMIT};
use crate::slot::SlotStatus;
use crate::sync_list::{Measurement, SyncList};

/// 02 C-12: the highest observed time and action point, in microticks. The counter may run on from an even cycle through
/// the odd one behind it; no cycle length is taken off, as a deviation is a difference.
pub const LATEST: u32 = 2_560_000;

/// The default one is all zeros, which isn't sound.
#[derive(Clone, Debug, Default, PartialEq, Eq)]
pub struct ClockState {
    pub settings: Settings,
    pub open: Option<u8>,
    pub last_closed: Option<u8>,
    pub stored_rate: i32,
    /// That of even cycles and that of odd ones.
    pub lists: [SyncList; 2],
}

#[derive(Clone, Copy, Debug, Default, PartialEq, Eq)]
pub struct Times {
    pub observed: u32,
    pub action_point: u32,
}

/// The list in which a cycle's measurements stand.
pub fn list_of(cycle: u8) -> usize {
    usize::from(cycle % 2)
}

/// Loading; the only refusal is that of a setting.
pub fn load(settings: Settings) -> Result<ClockState, Refusal> {
    if settings.first_out_of_range().is_some() {
        return Err(Refusal::Setting);
    }
    Ok(ClockState { settings, ..ClockState::default() })
}

impl ClockState {
    /// The state after opening a cycle.
    pub fn opened(&self, cycle: u8) -> Result<ClockState, Refusal> {
        refuse_first(&self.opening_causes(cycle))?;
        let [even, _] = &self.lists;
        let even = if self.continues_with(cycle) { even.clone() } else { SyncList::default() };
        Ok(ClockState { open: Some(cycle), lists: [even, SyncList::default()], ..self.clone() })
    }

    /// Every cause for a refusal of opening a cycle, in the order 23, 11, 19.
    pub fn opening_causes(&self, cycle: u8) -> Vec<Refusal> {
        holding([
            (Refusal::NotSound, !self.is_sound()),
            (Refusal::Cycle, cycle > HIGHEST_CYCLE),
            (Refusal::CycleOpenAlready, self.open.is_some()),
        ])
    }

    /// Whether this is an odd cycle right behind the last closed one; only then the even list stays.
    fn continues_with(&self, cycle: u8) -> bool {
        cycle % 2 == 1 && self.last_closed == Some(cycle - 1)
    }

    /// The state after measuring, and the deviation by its own settings, whatever those of the status. It is listed with
    /// their mark (02 C-17).
    pub fn measured(&self, status: &SlotStatus, times: Times) -> Result<(ClockState, i32), Refusal> {
        refuse_first(&self.measuring_causes(status, times))?;
        let frame = status.kept.ok_or(Refusal::NoSyncFrame)?;
        let deviation = deviation(&self.settings, status.channel, times);
        let deviation = i32::try_from(deviation).expect("times and settings in range leave a small number");
        let mut after = self.clone();
        let list = &mut after.lists[list_of(frame.cycle)];
        let measurement = Measurement { deviation, mark: self.settings.mark };
        *list = list.with(frame.id, status.channel, measurement);
        Ok((after, deviation))
    }

    /// Every cause for a refusal of measuring, in the order 23, 18, 14, 20, 22, 16, 15.
    pub fn measuring_causes(&self, status: &SlotStatus, times: Times) -> Vec<Refusal> {
        let mut causes = holding([
            (Refusal::NotSound, !self.is_sound() || !status.is_sound()),
            (Refusal::NoCycleOpen, self.open.is_none()),
            (Refusal::Time, times.observed.max(times.action_point) > LATEST),
            (Refusal::NoSyncFrame, sync_frame(status).is_none()),
        ]);
        if let Some(frame) = &status.kept {
            // Where no cycle is open, the frame's own one says which list it would be.
            let list = &self.lists[list_of(self.open.unwrap_or(frame.cycle))];
            let full = u32::from(list.count()) >= self.settings.field(SYNC_ID_LIMIT);
            causes.extend(holding([
                (Refusal::OtherCycle, self.open != Some(frame.cycle)),
                (Refusal::MeasuredAlready, list.has(frame.id, status.channel)),
                (Refusal::ListFull, full && list.of(frame.id).is_none()),
            ]));
        }
        causes
    }

    /// The state after closing, and what closing found.
    pub fn closed(&self, controls: Controls) -> Result<(ClockState, Closing), Refusal> {
        refuse_first(&self.closing_causes(controls))?;
        let cycle = self.open.ok_or(Refusal::NoCycleOpen)?;
        let closing = Closing::of(self, cycle, controls);
        let stored_rate = closing.rate_to_store().map_or(self.stored_rate, |rate| rate as i32);
        let after = ClockState { open: None, last_closed: Some(cycle), stored_rate, ..self.clone() };
        Ok((after, closing))
    }

    /// Every cause for a refusal of closing a cycle, in the order 23, 18, 21.
    pub fn closing_causes(&self, controls: Controls) -> Vec<Refusal> {
        holding([
            (Refusal::NotSound, !self.is_sound()),
            (Refusal::NoCycleOpen, self.open.is_none()),
            (Refusal::Control, !controls.are_known()),
        ])
    }

    /// 01 "Refusal numbers" and 02 C-17: what makes a clock state sound.
    pub fn is_sound(&self) -> bool {
        let (limit, mark) = (self.settings.field(SYNC_ID_LIMIT), self.settings.mark);
        self.settings.first_out_of_range().is_none()
            && self.open.iter().chain(&self.last_closed).all(|cycle| *cycle <= HIGHEST_CYCLE)
            && self.lists.iter().all(|list| list.is_sound(limit, mark))
            && self.stored_rate.unsigned_abs() <= self.settings.field(RATE_LIMIT)
    }
}

/// 01 "Clock": what correction and delay leave of an observed time, against its action point.
pub fn deviation(settings: &Settings, channel: Channel, times: Times) -> i64 {
    let late = settings.signed(DECODING_CORRECTION) + settings.signed(delay_on(channel));
    i64::from(times.observed) - late - i64::from(times.action_point)
}

/// The field with the delay of a channel.
pub fn delay_on(channel: Channel) -> usize {
    match channel {
        Channel::A => DELAY_A,
        Channel::B => DELAY_B,
    }
}

/// The kept frame, where it is a sync frame in a slot that is static by the status's settings.
fn sync_frame(status: &SlotStatus) -> Option<&Fields> {
    status.kept.as_ref().filter(|kept| kept.indicators.sync && status.is_static())
}

#[cfg(test)]
mod tests {
    use super::*;
    use crate::clock_scene::{status_with, wide_settings};
    use crate::settings::{HIGHEST_CORRECTION, HIGHEST_DELAY};
    use crate::sheet_mark::SheetMark;
    use crate::sync_list::DEVIATIONS;

    /// 02, C-12: lowest -2,560,510, highest 2,560,000.
    #[test]
    fn the_ends_of_deviations() {
        let none = wide_settings(false);
        let longest = none.with_field(DECODING_CORRECTION, HIGHEST_CORRECTION).with_field(DELAY_B, HIGHEST_DELAY);
        let sync = status_with(none, Channel::B, 7, 0, 0b01000).status();
        for (settings, observed, action_point, end) in [(longest, 0, LATEST, -2_560_510), (none, LATEST, 0, 2_560_000)]
        {
            let open = load(settings).and_then(|state| state.opened(0)).expect("settings and cycle are in range");
            let (after, deviation) = open.measured(&sync, Times { observed, action_point }).expect("both are in range");
            assert_eq!((deviation, after.is_sound()), (end, true));
        }
        assert_eq!(DEVIATIONS, -2_560_510..=2_560_000);
    }

    /// 02 C-17: under marks 5 and 6, with a status under mark 9.
    #[test]
    fn marks_by_hand() {
        let sheet = |mark| wide_settings(false).with_mark(SheetMark(mark));
        let sync = |cycle| status_with(sheet(9), Channel::B, 7, cycle, 0b01000).status();
        let times = Times { observed: 12, action_point: 2 };
        let fresh = load(sheet(5)).expect("the sheet is in range");
        let (even, _) = fresh.opened(4).and_then(|open| open.measured(&sync(4), times)).expect("all is in range");
        assert_eq!(
            even.lists[0].sightings[0].measurements[&Channel::B],
            Measurement { deviation: 10, mark: SheetMark(5) }
        );
        let (closed, report) = even.closed(Controls::NONE).expect("a cycle is open");
        assert_eq!(report.numbers(), "10 0 0 0 0 0 1 5");
        let (odd, _) = closed.opened(5).and_then(|open| open.measured(&sync(5), times)).expect("all is in range");
        assert_eq!(odd.closed(Controls::NONE).map(|(_, report)| report.numbers()), Ok("10 0 0 0 0 0 1 5".to_string()));
        // Both lists are looked at, and nothing comes over into another load.
        for list in [0, 1] {
            let mut wrong = odd.clone();
            wrong.lists[list] =
                wrong.lists[list].with(7, Channel::B, Measurement { deviation: 10, mark: SheetMark(6) });
            assert_eq!(wrong.closed(Controls::NONE), Err(Refusal::NotSound));
        }
        assert_eq!(ClockState { settings: sheet(6), ..odd }.closed(Controls::NONE), Err(Refusal::NotSound));
        assert_eq!(load(sheet(5)), Ok(fresh));
    }
}
