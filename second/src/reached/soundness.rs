//! The clauses of sound states, part by part: what was wrong with a state that was refused, what was right with others.

use super::both_checksums::look;
use super::choices::any;
use super::reader_soundness::of_reader;
use super::second_frames::MISSED;
use super::Reached;
use crate::answer::Answer;
use crate::checksum_pair::ChecksumPair;
use crate::clock::ClockState;
use crate::faults::{WRONG_CYCLES, WRONG_IDS};
use crate::frame::{Fields, HIGHEST_CYCLE, HIGHEST_ID, MOST_WORDS};
use crate::history::with_conflict;
use crate::marks::Mark;
use crate::reader_numbers::ReaderNumbers;
use crate::reason::Reason;
use crate::refusal::Refusal;
use crate::scene::Kind;
use crate::settings::{self, Settings, FIELDS, RATE_LIMIT, SYNC_ID_LIMIT};
use crate::sheet_mark::SheetMark;
use crate::slot::SlotStatus;
use crate::sync_list::{Measurement, SyncList, DEVIATIONS, PLACES};

/// What stands in a part of a state, and whether it is right.
pub(super) type Parts = Vec<(String, bool)>;

fn of_settings(settings: &Settings) -> Parts {
    let wrong = settings.out_of_range();
    let part = |field| (format!("field {field} is {}", settings.field(field)), !wrong.contains(&field));
    (1..=FIELDS).map(part).collect()
}

fn of_status(status: &SlotStatus) -> Parts {
    let (kind, reason, kept) = (Kind::of(status), status.reason, status.kept.is_some());
    let [syntax_error, content_error, valid] =
        [Mark::SyntaxError, Mark::ContentError, Mark::Valid].map(|mark| status.marks.has(mark));
    let (slot, cycle, marks) = (status.slot, status.cycle, status.marks.number());
    let (look, ChecksumPair { found, expected }) = (look(status.checksums), status.checksums);
    let mut parts = of_settings(&status.settings);
    parts.extend([
        (format!("slot {slot}"), (1..=HIGHEST_ID).contains(&slot)),
        (format!("cycle {cycle}"), cycle <= HIGHEST_CYCLE),
        (format!("{kind:?} content error: {content_error}, {reason:?}"), content_error == reason.is_some()),
        (format!("{kind:?} valid: {valid}, kept: {kept}"), valid == kept),
        (format!("{kind:?} {reason:?} beside valid: {valid}"), valid || reason != Some(Reason::SecondGoodFrame)),
        (format!("checksums {look}, syntax error: {syntax_error}"), syntax_error || found == 0 && expected == 0),
        (format!("marks {marks}"), with_conflict(marks) == marks),
    ]);
    parts.extend(status.kept.iter().flat_map(|kept| of_kept(status, kept)));
    parts
}

/// The same with all fields as one, which may be wrong for others too.
fn of_measured(status: &SlotStatus) -> Parts {
    if status.settings.first_out_of_range().is_some() {
        return vec![("some field of the status".to_string(), false)];
    }
    of_status(status)
}

/// Tests are missed by a frame that could be read.
fn of_kept(status: &SlotStatus, kept: &Fields) -> Parts {
    let Fields { indicators, id, words, header_checksum, cycle } = *kept;
    let (kind, wrong) = (Kind::of(status), header_checksum ^ kept.right_header_checksum());
    let (startup, sync) = (indicators.startup, indicators.sync);
    let mut parts = vec![
        (format!("kept ID {id}"), (1..=HIGHEST_ID).contains(&id)),
        (format!("{kind:?} kept words {words}"), words <= MOST_WORDS),
        (format!("kept cycle {cycle}"), cycle <= HIGHEST_CYCLE),
        (format!("kept checksum wrong in {wrong}"), wrong == 0),
        (format!("kept startup: {startup}, sync: {sync}"), sync || !startup),
    ];
    if parts.iter().all(|(_, right)| *right) {
        let missed = status.misses(kept);
        parts.push((format!("{kind:?} kept misses {missed:?}"), missed.is_empty()));
    }
    parts
}

fn of_clock(state: &ClockState) -> Parts {
    let mut parts = of_settings(&state.settings);
    let cycles = [("open", state.open), ("last", state.last_closed)];
    let there = cycles.into_iter().filter_map(|(name, cycle)| Some((name, cycle?)));
    parts.extend(there.map(|(name, cycle)| (format!("{name} cycle {cycle}"), cycle <= HIGHEST_CYCLE)));
    let [ids, limit] = [SYNC_ID_LIMIT, RATE_LIMIT].map(|field| state.settings.field(field));
    let rate = state.stored_rate;
    parts.push((format!("rate {rate} of {limit}"), rate.unsigned_abs() <= limit));
    parts.extend((0..2).flat_map(|list| of_list(list, &state.lists[list], ids)));
    parts.extend((0..2).flat_map(|list| of_marks(list, &state.lists[list], state.settings.mark)));
    parts
}

/// List 0 is that of even cycles, 1 that of odd ones.
fn of_list(list: usize, of_cycle: &SyncList, limit: u32) -> Parts {
    let count = of_cycle.count();
    let fits = u32::from(count) <= limit && usize::from(count) <= PLACES;
    let mut parts = vec![(format!("list {list} has {count} of {limit}"), fits)];
    let mut earlier = Vec::new();
    for (row, of_id) in of_cycle.sightings.iter().enumerate() {
        let (id, seen) = (of_id.id, of_id.measurements.keys().collect::<Vec<_>>());
        parts.push((format!("list {list} row {row} has ID {id}"), (1..=HIGHEST_ID).contains(&id)));
        parts.push((format!("list {list} sees on {seen:?}"), !seen.is_empty()));
        for (channel, Measurement { deviation, .. }) in &of_id.measurements {
            parts.push((format!("list {list} has {deviation} on {channel:?}"), DEVIATIONS.contains(deviation)));
        }
        let same = earlier.iter().filter(|(other, _)| *other == id);
        parts.extend(same.map(|(_, before)| (format!("list {list} sees one on {before:?} and {seen:?}"), false)));
        earlier.push((id, seen));
    }
    parts
}

/// 02 C-17: each measurement of a list, by the place of its row.
fn of_marks(list: usize, of_cycle: &SyncList, mark: SheetMark) -> Parts {
    let count = of_cycle.count();
    let mut parts = Vec::new();
    for (row, of_id) in of_cycle.sightings.iter().enumerate() {
        for (channel, measured) in &of_id.measurements {
            let whose = if measured.mark == mark { "the sheet's mark" } else { "another mark" };
            parts.push((format!("list {list} row {row} of {count} has {whose} on {channel:?}"), measured.mark == mark));
        }
    }
    parts
}

fn wrong(parts: Parts) -> String {
    let wrong: Vec<String> = parts.into_iter().filter(|(_, right)| !right).map(|(part, _)| part).collect();
    wrong.join(", ")
}

impl Reached {
    /// A measurement is given both states, and is refused for either.
    pub(super) fn add_soundness(&mut self, letter: char, answer: &Answer) {
        let sound = answer.refusal() != Some(Refusal::NotSound);
        let parts = match letter {
            'A' | 'B' | 'X' => of_status(&self.held.status),
            'M' if !sound && self.held.clock.is_sound() => of_measured(&self.held.status),
            'O' | 'M' | 'C' => of_clock(&self.held.clock),
            'Y' => of_reader(&ReaderNumbers::of(&self.held.reader)),
            _ => return,
        };
        // The clauses are told apart here otherwise than where the answer comes from, and both must say the same.
        if sound != parts.iter().all(|(_, right)| *right) {
            return self.impossible.push(format!("{letter} sound: {sound}, wrong: {}", wrong(parts)));
        }
        if !sound {
            self.add_zeros(letter);
            return self.add_of(letter, format!("{letter} unsound by {}", wrong(parts)));
        }
        if answer.refusal().is_none() {
            parts.into_iter().for_each(|(part, _)| self.add_of(letter, format!("{letter} sound with {part}")));
        }
    }
}

/// Every clause broken, and the same part right, with every entry.
pub(super) fn required() -> Vec<String> {
    let (id, cycle) = (HIGHEST_ID + 1, HIGHEST_CYCLE + 1);
    let mut all: Vec<String> = MEASURED.map(|wrong| format!("M unsound by {wrong}")).into();
    all.push(format!(
        "M unsound by <slot {id}, kept ID {id}|cycle {cycle}, kept cycle {cycle}|kept cycle {}>",
        cycle | 7
    ));
    let wrong_marks = any((0..64).filter(|marks| with_conflict(*marks) != *marks));
    let right_marks = any((0..64).filter(|marks| with_conflict(*marks) == *marks));
    all.push(format!("<A|B|X> unsound by marks <{wrong_marks}>"));
    all.push(format!("<A|B|X> sound with marks <{right_marks}>"));
    all.extend(of_fields());
    all.extend(of_statuses());
    all.extend(of_kinds());
    all.extend(of_clocks());
    all.extend(of_lists());
    all
}

/// What makes a status with a sync frame in a static slot unsound, where it is measured.
const MEASURED: [&str; 10] = [
    "some field of the status",
    "Static kept misses [<Id|Cycle>]",
    "Dynamic kept misses [DynamicSync]",
    "Static valid: <false, kept: true|true, kept: false>",
    "Static content error: <false, Some(Missed(Id))|false, Some(SecondGoodFrame)|true, None>",
    "Static Some(SecondGoodFrame) beside valid: false",
    "marks <24|48>",
    // The second is what another number of words would give.
    "kept checksum wrong in <1|901>",
    "kept startup: true, sync: false",
    "slot 0, kept ID 0",
];

fn of_fields() -> Vec<String> {
    let of_field = |field| {
        let (wrong, right): (Vec<u32>, Vec<u32>) = settings::beyond(field).into_iter().unzip();
        let unsound = format!("<A|B|X|O|M|C> unsound by field {field} is <{}>", any(wrong));
        [unsound, format!("<A|B|X|O|M|C> sound with field {field} is <{}>", any(right))]
    };
    (1..=FIELDS).flat_map(of_field).collect()
}

fn of_statuses() -> Vec<String> {
    let (ids, cycles) = (any(WRONG_IDS), any(WRONG_CYCLES));
    let (id, cycle) = (HIGHEST_ID + 1, HIGHEST_CYCLE + 1);
    let parts = [
        format!("unsound by <slot|kept ID> <{ids}>"),
        format!("unsound by <cycle|kept cycle> <{cycles}>"),
        format!("unsound by slot <0, kept ID 0|{id}, kept ID {id}>"),
        format!("unsound by cycle {cycle}, kept cycle {cycle}"),
        format!("sound with <slot|kept ID> <1|{HIGHEST_ID}>"),
        format!("sound with <cycle|kept cycle> {HIGHEST_CYCLE}"),
        format!("unsound by kept checksum wrong in <{}>", any((0..16).map(|bit| 1 << bit))),
        "sound with kept checksum wrong in 0".to_string(),
        "unsound by kept startup: true, sync: false".to_string(),
        "sound with kept startup: true, sync: true".to_string(),
    ];
    parts.map(|part| format!("<A|B|X> {part}")).into()
}

fn of_kinds() -> Vec<String> {
    let reasons = format!("{MISSED}|SecondGoodFrame");
    let parts = [
        format!("unsound by <Static|Dynamic> content error: false, Some(<{reasons}>)"),
        format!("sound with <Static|Dynamic> content error: true, Some(<{reasons}>)"),
        "unsound by <Static|Dynamic> content error: true, None".to_string(),
        "sound with <Static|Dynamic> content error: false, None".to_string(),
        "unsound by <Static|Dynamic> valid: <false, kept: true|true, kept: false>".to_string(),
        "sound with <Static|Dynamic> valid: <false, kept: false|true, kept: true>".to_string(),
        format!("sound with <Static|Dynamic> Some(<{reasons}>) beside valid: true"),
        format!("sound with <Static|Dynamic> Some(<{MISSED}>) beside valid: false"),
        "unsound by <Static|Dynamic> Some(SecondGoodFrame) beside valid: false".to_string(),
        format!("unsound by <Static|Dynamic> kept words <{}|255>", MOST_WORDS + 1),
        "unsound by Static kept misses [<Id|Cycle|StaticWords>]".to_string(),
        "unsound by Dynamic kept misses [<Id|Cycle|DynamicSync|DynamicNull>]".to_string(),
        "sound with <Static|Dynamic> kept misses []".to_string(),
    ];
    parts.map(|part| format!("<A|B|X> {part}")).into()
}

/// A cycle is opened where none is open.
fn of_clocks() -> Vec<String> {
    let mut all = vec![
        format!("<O|M|C> unsound by <open|last> cycle <{}>", any(WRONG_CYCLES)),
        format!("<M|C> sound with open cycle {HIGHEST_CYCLE}"),
        format!("<O|M|C> sound with last cycle {HIGHEST_CYCLE}"),
    ];
    let (_, highest) = settings::ends(RATE_LIMIT);
    for limit in [0, 1, highest as i32] {
        let beyond = any([limit + 1, -limit - 1, i32::MAX, i32::MIN]);
        all.push(format!("<O|M|C> unsound by rate <{beyond}> of {limit}"));
        all.push(format!("<O|M|C> sound with rate <{}> of {limit}", any([limit, -limit])));
    }
    all
}

fn of_lists() -> Vec<String> {
    let (lowest, highest) = (*DEVIATIONS.start(), *DEVIATIONS.end());
    let beyond = any([lowest - 1, highest + 1, i32::MIN, i32::MAX]);
    let (ids, fewer, last) = (any(WRONG_IDS), PLACES - 1, PLACES - 1);
    let parts = [
        format!("unsound by list <0|1> has <3 of 2|{PLACES} of {fewer}|{} of {PLACES}|255 of {PLACES}>", PLACES + 1),
        format!("sound with list <0|1> has <2 of 2|{fewer} of {fewer}|{PLACES} of {PLACES}>"),
        format!("unsound by list <0|1> row <1|{last}> has ID <{ids}>"),
        format!("sound with list <0|1> row <1|{last}> has ID <1|{HIGHEST_ID}>"),
        "unsound by list <0|1> sees on []".to_string(),
        "unsound by list <0|1> sees one on <[A]|[B]|[A, B]> and <[A]|[B]|[A, B]>".to_string(),
        "sound with list <0|1> sees on <[A]|[B]|[A, B]>".to_string(),
        format!("unsound by list <0|1> has <{beyond}> on <A|B>"),
        format!("sound with list <0|1> has <{lowest}|{highest}> on <A|B>"),
    ];
    parts.map(|part| format!("<O|M|C> {part}")).into()
}
