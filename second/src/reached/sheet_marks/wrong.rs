//! States that are unsound by their marks and by nothing else.

use std::collections::BTreeSet;

use super::super::Reached;
use super::cycle_name;
use crate::channel::Channel;
use crate::clock::ClockState;
use crate::refusal::Refusal;
use crate::sheet_mark::SheetMark;

/// A listed measurement: the list, the channel and the mark.
type Listed = (usize, Channel, SheetMark);

impl Reached {
    pub(super) fn add_wrong_marks(&mut self, letter: char, refusal: Refusal) {
        let clock = &self.held.clock;
        let status_is_wrong = letter == 'M' && !self.held.status.is_sound();
        if refusal != Refusal::NotSound || status_is_wrong || !all_under(clock, clock.settings.mark).is_sound() {
            return;
        }
        let open = clock.open.map_or("no", cycle_name);
        let texts = texts(&all_listed(clock), clock.settings.mark, open);
        texts.into_iter().for_each(|text| self.add_of(letter, format!("{letter} unsound by {text}")));
    }
}

/// The state with this mark wherever there is one in its lists.
fn all_under(clock: &ClockState, mark: SheetMark) -> ClockState {
    let mut under = clock.clone();
    let sightings = under.lists.iter_mut().flat_map(|list| &mut list.sightings);
    sightings.flat_map(|of_id| of_id.measurements.values_mut()).for_each(|measured| measured.mark = mark);
    under
}

fn all_listed(clock: &ClockState) -> Vec<Listed> {
    let mut all = Vec::new();
    for (list, of_cycle) in clock.lists.iter().enumerate() {
        let measurements = of_cycle.sightings.iter().flat_map(|of_id| &of_id.measurements);
        all.extend(measurements.map(|(channel, measured)| (list, *channel, measured.mark)));
    }
    all
}

/// Which of them are wrong, if they all have the same mark, and how that differs from the right one.
fn texts(listed: &[Listed], right: SheetMark, open: &str) -> Vec<String> {
    let wrong: Vec<Listed> = listed.iter().copied().filter(|(.., mark)| *mark != right).collect();
    let Some((.., mark)) = wrong.first().copied() else {
        return Vec::new();
    };
    if listed.len() == 1 || wrong.iter().any(|(.., other)| *other != mark) {
        return Vec::new();
    }
    let differing = differing(mark.0 ^ right.0);
    let whiches = whiches(listed, &wrong, open).into_iter();
    whiches.flat_map(|which| [format!("{which}, {mark} under {right}"), format!("{which}, {differing}")]).collect()
}

fn differing(bits: u32) -> String {
    if bits.is_power_of_two() {
        return format!("bit {} alone", bits.ilog2());
    }
    "many bits".to_string()
}

/// One alone, all of them, all in a list or all on a channel; some others are not told apart.
fn whiches(listed: &[Listed], wrong: &[Listed], open: &str) -> Vec<String> {
    let (list, channel, _) = wrong[0];
    if wrong.len() == 1 {
        return vec!["one mark".to_string(), format!("one mark of list {list} on {channel:?}, {open} cycle open")];
    }
    if wrong == listed {
        let lists: BTreeSet<usize> = listed.iter().map(|(list, ..)| *list).collect();
        return vec![format!("marks that agree in lists {:?}", Vec::from_iter(lists))];
    }
    let are_all = |is: &dyn Fn(&Listed) -> bool| wrong.iter().eq(listed.iter().filter(|measured| is(measured)));
    let mut all = Vec::new();
    all.extend(are_all(&|(other, ..)| *other == list).then(|| format!("all marks of list {list}")));
    all.extend(are_all(&|(_, other, _)| *other == channel).then(|| format!("all marks on {channel:?}")));
    all
}
