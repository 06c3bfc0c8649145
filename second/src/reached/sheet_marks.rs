//! 02 C-17: which marks were loaded, measured under and reported, and what a mark meets on its way.

mod required;
mod unlooked;
mod wrong;

use super::stays::Origin;
use super::Reached;
use crate::answer::Answer;
use crate::channel::Channel;
use crate::clock::{list_of, ClockState};
use crate::clock_numbers::{ClockNumbers, RowNumbers};
use crate::closing::Closing;
use crate::script::{Command, Opening};
use crate::settings::{Settings, FIELDS, SYNC_ID_LIMIT};
use crate::sheet_mark::SheetMark;
use crate::status_numbers::StatusNumbers;

pub(super) use required::required;

/// What the commands alone say of the sheets by which the states were made.
#[derive(Default)]
pub(super) struct Sheets {
    /// The mark that came with the last load or with the last clock state, and 0 behind a refused load.
    of_clock: SheetMark,
    /// The same of a slot.
    of_status: SheetMark,
    /// Whether a call of the clock was accepted since, so that nothing may be listed under another mark.
    accepted: bool,
    /// The last load, if it found something listed.
    loaded_over: Option<LoadOver>,
}

struct LoadOver {
    text: String,
    /// The IDs that it found, with their channels.
    listed: Vec<(u16, Channel)>,
}

impl Reached {
    /// The states are still those that the command finds.
    pub(super) fn add_sheet_marks(&mut self, command: &Command, answer: &Answer) {
        match (command, answer) {
            (Command::Load(settings), Answer::Loaded(told, field)) => {
                self.add_sheet('L', settings, *field, answer.number());
                self.sheets.loaded_over = told.ok().and_then(|_| self.load_over_lists(settings));
                self.sheets.of_clock = if told.is_ok() { settings.mark } else { SheetMark::default() };
                self.sheets.accepted = true;
            }
            (Command::OpenSlot(Opening { settings, .. }), Answer::Opened(told, field)) => {
                self.add_sheet('S', settings, *field, answer.number());
                self.sheets.of_status = if told.is_ok() { settings.mark } else { SheetMark::default() };
            }
            (Command::PutClock(numbers), _) => {
                (self.sheets.of_clock, self.sheets.accepted) = (numbers.settings.mark, false);
                self.sheets.loaded_over = None;
            }
            (Command::PutStatus(numbers), _) => self.sheets.of_status = numbers.settings.mark,
            (Command::Arrived(_) | Command::Boundary | Command::OwnSending, _) => {
                let (letter, mark) = (command.letter(), self.sheets.of_status);
                self.add_of(letter, format!("{letter} on a status under mark {mark}: {}", answer.number()));
            }
            (Command::Show, Answer::Shown(clock, status)) => self.check_shown(clock, status),
            (Command::OpenCycle(_) | Command::Measure(_) | Command::CloseCycle(_), _) => {
                self.add_call(command, answer);
            }
            _ => (),
        }
    }

    /// A load or an opening of a slot, with the field that it tells or all of them.
    fn add_sheet(&mut self, letter: char, settings: &Settings, told: usize, number: u8) {
        let sheet = format!("{letter} of a sheet with mark {}", settings.mark);
        self.add_of(letter, format!("{sheet}: {number} {told}"));
        let fields = if told > 0 { told..=told } else { 1..=FIELDS };
        for field in fields {
            self.add_of(letter, format!("{sheet} and field {field} of {}: {number}", settings.field(field)));
        }
    }

    /// A sheet that takes the place of a loaded one under which something is listed: in the middle of a cycle, or in none
    /// behind an even one.
    fn load_over_lists(&self, settings: &Settings) -> Option<LoadOver> {
        let clock = &self.held.clock;
        let last = clock.open.or(clock.last_closed.filter(|last| last % 2 == 0))?;
        let listed: Vec<(u16, Channel)> = measured(clock, list_of(last)).collect();
        if listed.is_empty() || self.clock_from != Origin::Opened {
            return None;
        }
        let name = clock.open.map_or("no", cycle_name);
        let mark = if clock.settings.mark == settings.mark { "the same" } else { "another" };
        let fields = if clock.settings.with_mark(settings.mark) == *settings { "the same" } else { "other" };
        Some(LoadOver { text: format!("load in {name} cycle, {mark} mark, {fields} fields"), listed })
    }

    /// An opening, a measurement or a closing.
    fn add_call(&mut self, command: &Command, answer: &Answer) {
        let letter = command.letter();
        if let Some(refusal) = answer.refusal() {
            self.add_wrong_marks(letter, refusal);
            return self.add_refused_under_mark(letter, answer);
        }
        self.add_unlooked_marks(letter);
        match (command, answer) {
            (Command::OpenCycle(cycle), _) => self.add_opened_under_mark(*cycle),
            (_, Answer::Closed(Ok(closing))) => self.add_report(closing, &answer.line()),
            _ => self.add_measured_under_mark(),
        }
        self.sheets.accepted = true;
    }

    /// By a refusal nothing is told, and all marks stay.
    fn add_refused_under_mark(&mut self, letter: char, answer: &Answer) {
        let (number, mark) = (answer.number(), self.sheets.of_clock);
        let told = match letter {
            'O' => "",
            'M' => " 0",
            _ => " 0 0 0 0 0 0 0 0",
        };
        if !answer.line().ends_with(&format!(" {number}{told}")) {
            self.impossible.push(format!("{letter} refused under mark {mark}: {}", answer.line()));
        }
        let lists: Vec<usize> = [0, 1].into_iter().filter(|list| self.held.clock.lists[*list].count() > 0).collect();
        self.add_of(letter, format!("{letter} refused by {number} under mark {mark} with lists {lists:?}"));
        if number == 15 {
            let limit = self.held.clock.settings.field(SYNC_ID_LIMIT);
            self.add_of(letter, format!("{:?}: one more than {limit} under mark {mark}", self.clock_from));
        }
    }

    fn add_opened_under_mark(&mut self, cycle: u8) {
        let (clock, mark, name) = (&self.held.clock, self.sheets.of_clock, cycle_name(cycle));
        let kept = cycle % 2 == 1 && clock.last_closed == Some(cycle - 1) && clock.lists[0].count() > 0;
        if kept {
            self.add_of('O', format!("{:?}: even list kept under mark {mark}", self.clock_from));
        }
        self.add_behind_load('O', &format!("{name} cycle opened"));
    }

    fn add_measured_under_mark(&mut self) {
        let (clock, status, mark) = (&self.held.clock, &self.held.status, self.sheets.of_clock);
        let (Some(kept), channel) = (status.kept, status.channel) else {
            return;
        };
        let (list, limit) = (list_of(kept.cycle), clock.settings.field(SYNC_ID_LIMIT));
        let last = u32::from(clock.lists[list].count()) + 1 == limit && clock.lists[list].of(kept.id).is_none();
        let (origin, from, of_status) = (self.clock_from, self.status_from, self.sheets.of_status);
        let of_status = format!("{from:?} status under mark {of_status}");
        self.add_of('M', format!("{origin:?} clock under mark {mark}, {of_status}: on {channel:?} in list {list}"));
        if last {
            self.add_of('M', format!("{origin:?}: last of {limit} under mark {mark}"));
        }
        let before = self.sheets.loaded_over.as_ref().is_some_and(|load| load.listed.contains(&(kept.id, channel)));
        let again = if before { "once more" } else { "first" };
        self.add_behind_load('M', &format!("measured {again} on {channel:?}"));
    }

    fn add_report(&mut self, closing: &Closing, line: &str) {
        let mark = self.sheets.of_clock;
        if closing.mark != mark || !line.ends_with(&format!(" {} {mark}", closing.deviations.len())) {
            self.impossible.push(format!("report under mark {mark}: {line}"));
        }
        let [offset, rate, ..] = closing.flags();
        let (origin, name) = (self.clock_from, cycle_name(closing.cycle));
        let missing = format!("offset missing: {offset}, rate missing: {rate}");
        self.add_of('C', format!("{origin:?}: {name} cycle closed under mark {mark}, {missing}"));
        self.add_behind_load('C', &format!("{name} cycle closed, {missing}"));
    }

    /// What follows a load that found something listed, up to the next load or put state.
    fn add_behind_load(&mut self, letter: char, what: &str) {
        if let Some(load) = &self.sheets.loaded_over {
            let text = format!("{}: {what}", load.text);
            self.add_of(letter, text);
        }
    }

    /// The marks that came with the commands are those that are held, and those of all that is listed.
    fn check_shown(&mut self, clock: &ClockNumbers, status: &StatusNumbers) {
        let Sheets { of_clock, of_status, accepted, .. } = self.sheets;
        let rows = clock.lists.iter().flat_map(|list| list.listed());
        let right =
            |row: &RowNumbers| Channel::BOTH.map(|channel| if row.is_seen_on(channel) { of_clock.0 } else { 0 });
        let wrong_rows = rows.filter(|row| accepted && row.pair.map(|mark| mark.0) != right(row)).count();
        if wrong_rows > 0 || clock.settings.mark != of_clock || status.settings.mark != of_status {
            let given = format!("marks {of_clock} and {of_status}");
            self.impossible.push(format!("{given} given: {}, {}", clock.line(), status.line()));
        }
    }
}

/// Every ID of a list with each channel on which it was measured.
fn measured(clock: &ClockState, list: usize) -> impl Iterator<Item = (u16, Channel)> + '_ {
    let sightings = clock.lists[list].sightings.iter();
    sightings.flat_map(|of_id| of_id.measurements.keys().map(|channel| (of_id.id, *channel)))
}

fn cycle_name(cycle: u8) -> &'static str {
    match cycle % 2 {
        0 => "an even",
        _ => "an odd",
    }
}
