//! Wrong marks of a state that was put, where nobody looks at them.

use super::super::Reached;
use crate::channel::Channel;
use crate::clock::list_of;
use crate::clock_numbers::{ClockNumbers, ListNumbers};
use crate::sheet_mark::SheetMark;
use crate::sync_list::PLACES;

impl Reached {
    /// A call was accepted on the very state that was put.
    pub(super) fn add_unlooked_marks(&mut self, letter: char) {
        let Some(numbers) = self.put_clock.filter(|_| !self.sheets.accepted) else {
            return;
        };
        let mut all = Vec::new();
        for (place, list) in numbers.lists.iter().enumerate() {
            let texts = of_list(list, numbers.settings.mark).into_iter();
            all.extend(texts.map(|text| format!("{letter} beside another mark in list {place}, {text}")));
        }
        if letter == 'M' {
            all.extend(self.taken_over(&numbers));
        }
        all.into_iter().for_each(|text| self.add_of(letter, text));
    }

    /// What was measured takes the place of another mark on its channel: in a row behind the count, or behind a clear bit of
    /// a listed one.
    fn taken_over(&self, numbers: &ClockNumbers) -> Option<String> {
        let (frame, channel) = (self.held.status.kept?, self.held.status.channel);
        let place = list_of(frame.cycle);
        let list = &numbers.lists[place];
        let at = list.listed().iter().position(|row| row.id == frame.id);
        let row = at.map_or("row", |_| "channel");
        let before = list.rows[at.unwrap_or(list.listed().len())].pair[usize::from(channel.number())];
        is_another(before, numbers.settings.mark)
            .then(|| format!("{row} with another mark taken over on {channel:?} in list {place}"))
    }
}

/// Channels that are seen in a row behind the count, and those that are not seen in a listed one.
fn of_list(list: &ListNumbers, mark: SheetMark) -> Vec<String> {
    let count = list.listed().len();
    let mut all = Vec::new();
    for (at, row) in list.rows.iter().enumerate() {
        let is_wrong = |channel: &Channel| is_another(row.pair[usize::from(channel.number())], mark);
        for channel in Channel::BOTH.into_iter().filter(is_wrong) {
            match row.is_seen_on(channel) {
                true if at == count => all.push(format!("right behind the count on {channel:?}")),
                true if at == PLACES - 1 && at > count => all.push(format!("in the last row on {channel:?}")),
                false if at < count => {
                    all.push(format!("behind a clear bit on {channel:?}, unnamed ones: {}", row.seen > 3))
                }
                _ => (),
            }
        }
    }
    all
}

/// 0 could be taken for no mark at all.
fn is_another(mark: SheetMark, right: SheetMark) -> bool {
    mark != right && mark.0 != 0
}
