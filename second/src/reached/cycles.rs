//! Loads, and cycles that are opened behind others or not.

use super::stays::Origin;
use super::Reached;
use crate::answer::Answer;
use crate::clock_numbers::ClockNumbers;
use crate::clock_scene::Last;

impl Reached {
    /// 01 names this wrong build: new delays are loaded while old deviations stay listed.
    pub(super) fn add_load(&mut self, answer: &Answer) {
        let listed = self.held.clock.lists.iter().any(|list| list.count() > 0);
        if answer.refusal().is_none() && listed {
            self.add_of('L', format!("load over lists, cycle open: {}", self.held.clock.open.is_some()));
        }
        self.clock_from = answer.refusal().map_or(Origin::Opened, Origin::Refused);
        (self.put_clock, self.odd_opened) = (None, None);
        self.measured_with_f.clear();
    }

    pub(super) fn add_put_clock(&mut self, numbers: &ClockNumbers) {
        self.clock_from = Origin::Put;
        (self.put_clock, self.odd_opened) = (Some(*numbers), None);
        self.measured_with_f.clear();
        self.add_unlooked_of_clock(numbers);
    }

    pub(super) fn add_open_cycle(&mut self, cycle: u8, answer: &Answer) {
        if answer.refusal().is_some() {
            return;
        }
        let (odd, last) = (cycle % 2 == 1, Last::of(self.held.clock.last_closed, cycle));
        if self.held.clock.lists.iter().all(|list| list.count() > 0) {
            self.add_of('O', format!("both lists there, odd cycle: {odd}, behind {last:?}"));
        }
        if let Some(before) = self.odd_opened.take().filter(|_| !odd) {
            self.add(format!("even cycle behind an odd one behind {before:?}"));
        }
        self.odd_opened = odd.then_some(last);
        self.put_clock = None;
        self.measured_with_f.clear();
    }
}

/// Gaps between cycles and none.
pub(super) fn required() -> Vec<String> {
    let all = [
        "load over lists, cycle open: <false|true>",
        "both lists there, odd cycle: <false|true>, behind <None|Before|Same|Other>",
        "even cycle behind an odd one behind <None|Before|Same|Other>",
    ];
    all.map(str::to_string).into()
}
