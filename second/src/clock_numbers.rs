//! A clock state in the numbers of a script, as `K` hands it in and `D` shows it.

use crate::channel::Channel;
use crate::clock::ClockState;
use crate::settings::Settings;
use crate::sheet_mark::SheetMark;
use crate::sync_list::{Measurement, Sighting, SyncList, PLACES};

const NAMED_SEEN: u8 = 0b11;

/// One place of a list.
#[derive(Clone, Copy, Debug, Default, PartialEq, Eq)]
pub struct RowNumbers {
    pub id: u16,
    pub seen: u8,
    /// Deviation on A and on B.
    pub deviations: [i32; 2],
    /// 02 C-17: the mark of the measurement on A and of that on B.
    pub pair: [SheetMark; 2],
}

impl RowNumbers {
    fn of(sighting: &Sighting) -> RowNumbers {
        let mut row = RowNumbers { id: sighting.id, ..RowNumbers::default() };
        for (channel, measurement) in &sighting.measurements {
            row.see(*channel, measurement.deviation, measurement.mark);
        }
        row
    }

    fn see(&mut self, channel: Channel, deviation: i32, mark: SheetMark) {
        let place = usize::from(channel.number());
        self.seen |= 1 << place;
        self.deviations[place] = deviation;
        self.pair[place] = mark;
    }

    fn sighting(&self) -> Sighting {
        let seen = Channel::BOTH.into_iter().filter_map(|channel| Some((channel, self.measurement(channel)?)));
        Sighting { id: self.id, measurements: seen.collect() }
    }

    /// What the row says of a channel on which it is seen.
    fn measurement(&self, channel: Channel) -> Option<Measurement> {
        let place = usize::from(channel.number());
        let measurement = Measurement { deviation: self.deviations[place], mark: self.pair[place] };
        self.is_seen_on(channel).then_some(measurement)
    }

    pub fn is_seen_on(&self, channel: Channel) -> bool {
        self.seen >> channel.number() & 1 == 1
    }

    fn looked_at(&self) -> RowNumbers {
        let mut row = RowNumbers { seen: self.seen & NAMED_SEEN, ..*self };
        for place in [0, 1].into_iter().filter(|place| self.seen >> place & 1 == 0) {
            (row.deviations[place], row.pair[place]) = (0, SheetMark::default());
        }
        row
    }

    /// The row with this mark wherever one is looked at.
    fn under(self, mark: SheetMark) -> RowNumbers {
        let on = |channel| if self.is_seen_on(channel) { mark } else { self.pair[usize::from(channel.number())] };
        RowNumbers { pair: Channel::BOTH.map(on), ..self }
    }
}

#[derive(Clone, Copy, Debug, Default, PartialEq, Eq)]
pub struct ListNumbers {
    pub count: u8,
    pub rows: [RowNumbers; PLACES],
}

impl ListNumbers {
    fn of(list: &SyncList) -> ListNumbers {
        let mut rows = [RowNumbers::default(); PLACES];
        for (row, sighting) in rows.iter_mut().zip(&list.sightings) {
            *row = RowNumbers::of(sighting);
        }
        ListNumbers { count: list.count(), rows }
    }

    /// A row that isn't listed is never seen again: a new ID takes over a whole row, and an emptied list is blank.
    fn list(&self) -> SyncList {
        let sightings: Vec<Sighting> = self.listed().iter().map(RowNumbers::sighting).collect();
        let unplaced = self.count - sightings.len() as u8;
        SyncList { sightings, unplaced }
    }

    pub fn listed(&self) -> &[RowNumbers] {
        &self.rows[..usize::from(self.count).min(PLACES)]
    }

    fn looked_at(&self) -> ListNumbers {
        let mut rows = [RowNumbers::default(); PLACES];
        for (row, listed) in rows.iter_mut().zip(self.listed()) {
            *row = listed.looked_at();
        }
        ListNumbers { rows, ..*self }
    }

    fn under(mut self, mark: SheetMark) -> ListNumbers {
        let listed = self.listed().len();
        self.rows[..listed].iter_mut().for_each(|row| *row = row.under(mark));
        self
    }

    fn pairs(&self) -> String {
        self.listed().iter().flat_map(|row| row.pair).map(|mark| format!(" {mark}")).collect()
    }

    fn text(&self) -> String {
        let rows = self.listed().iter().map(|row| {
            let [on_a, on_b] = row.deviations;
            format!(" {} {} {on_a} {on_b}", row.id, row.seen)
        });
        format!("{}{}", self.count, rows.collect::<String>())
    }
}

#[derive(Clone, Copy, Debug, Default, PartialEq, Eq)]
pub struct ClockNumbers {
    pub settings: Settings,
    pub open: bool,
    pub cycle: u8,
    pub closed: bool,
    pub last: u8,
    pub rate: i32,
    /// That of even cycles and that of odd ones.
    pub lists: [ListNumbers; 2],
}

impl ClockNumbers {
    /// What is absent is 0.
    pub fn of(state: &ClockState) -> ClockNumbers {
        ClockNumbers {
            settings: state.settings,
            open: state.open.is_some(),
            cycle: state.open.unwrap_or(0),
            closed: state.last_closed.is_some(),
            last: state.last_closed.unwrap_or(0),
            rate: state.stored_rate,
            lists: [0, 1].map(|place| ListNumbers::of(&state.lists[place])),
        }
    }

    pub fn state(&self) -> ClockState {
        ClockState {
            settings: self.settings,
            open: self.open.then_some(self.cycle),
            last_closed: self.closed.then_some(self.last),
            stored_rate: self.rate,
            lists: self.lists.map(|list| list.list()),
        }
    }

    /// The numbers without what a script says but nobody looks at.
    pub fn looked_at(&self) -> ClockNumbers {
        ClockNumbers {
            cycle: if self.open { self.cycle } else { 0 },
            last: if self.closed { self.last } else { 0 },
            lists: self.lists.map(|list| list.looked_at()),
            ..*self
        }
    }

    /// The state with the mark of its settings wherever one is looked at, as 02 C-17 asks for.
    pub fn marked(self) -> ClockNumbers {
        ClockNumbers { lists: self.lists.map(|list| list.under(self.settings.mark)), ..self }
    }

    /// The first line of `D`.
    pub fn line(&self) -> String {
        let cycles =
            [u8::from(self.open), self.cycle, u8::from(self.closed), self.last].map(|number| number.to_string());
        let [even, odd] = self.lists.map(|list| list.text());
        let [even_pairs, odd_pairs] = self.lists.map(|list| list.pairs());
        let marks = format!("{} EVEN{even_pairs} ODD{odd_pairs}", self.settings.mark);
        format!("clock {} {} {} EVEN {even} ODD {odd} {marks}", self.settings.numbers(), cycles.join(" "), self.rate)
    }
}

#[cfg(test)]
mod tests {
    use super::*;

    fn strange() -> ClockNumbers {
        let settings = Settings {
            fields: [1, 2, 3, 4, 5, 6, 7, 8, 9, 10, u32::MAX],
            sends_sync: true,
            mark: SheetMark(4_000_000_001),
        };
        let pair = [SheetMark(u32::MAX), SheetMark(4_000_000_002)];
        let row = RowNumbers { id: 65535, seen: 0b1111_1110, deviations: [i32::MIN, -7], pair };
        let lists = [(0, 2), (1, 255)].map(|(id, count)| {
            let mut rows = [row; PLACES];
            rows[0] = RowNumbers { id, seen: 0, deviations: [1, 2], pair };
            ListNumbers { count, rows }
        });
        ClockNumbers { settings, open: true, cycle: 200, closed: true, last: 64, rate: -5, lists }
    }

    #[test]
    fn every_number_has_its_place() {
        let even = "EVEN 2 0 0 0 0 65535 2 0 -7";
        let odd = format!("ODD 255 1 0 0 0{}", " 65535 2 0 -7".repeat(PLACES - 1));
        let settings = "1 2 3 4 5 6 7 8 9 10 4294967295 1";
        let shown = ClockNumbers::of(&strange().state());
        let marks = format!("4000000001 EVEN 0 0 0 4000000002 ODD 0 0{}", " 0 4000000002".repeat(PLACES - 1));
        assert_eq!(shown.line(), format!("clock {settings} 1 200 1 64 -5 {even} {odd} {marks}"));
        assert_eq!(shown, strange().looked_at());
    }

    #[test]
    fn what_is_absent_shows_as_0() {
        assert_eq!(ClockNumbers::default().line(), format!("clock{} EVEN 0 ODD 0 0 EVEN ODD", " 0".repeat(17)));
        assert_eq!(ClockNumbers::default().state(), ClockState::default());
        let numbers = ClockNumbers { cycle: 3, last: 4, ..ClockNumbers::default() };
        assert_eq!(numbers.state(), ClockState::default());
    }
}
