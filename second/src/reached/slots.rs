//! What happens in slots, and what arrives in them.

use super::choices::any;
use super::second_frames::{Frames, MISSED};
use super::stays::Origin;
use super::Reached;
use crate::answer::Answer;
use crate::cases::{BORDERS, LOOKS};
use crate::faults::selections;
use crate::frame::{self, Fields, CYCLE_BITS, HIGHEST_ID, ID_BITS, MOST_WORDS};
use crate::history::{with_conflict, Sort, Tested};
use crate::reason::Test;
use crate::scene::Kind;
use crate::script::Command;
use crate::settings::{self, STATIC_SLOTS, STATIC_WORDS};
use crate::slot::SlotStatus;
use crate::status_numbers::StatusNumbers;

/// Null frame, sync and startup bit among the flags.
const LOOK_BITS: u8 = 0b11100;

/// Longer histories are not told apart.
const LONGEST_HISTORY: usize = 3;

impl Reached {
    pub(super) fn add_opening(&mut self, answer: &Answer) {
        self.status_from = answer.refusal().map_or(Origin::Opened, Origin::Refused);
        self.put_status = None;
        self.history.clear();
        self.frames = Frames::default();
        self.begin_arrivals(StatusNumbers::default());
    }

    pub(super) fn add_put_status(&mut self, numbers: &StatusNumbers) {
        self.status_from = Origin::Put;
        self.put_status = Some(*numbers);
        self.frames = Frames::put_with(&numbers.status());
        self.begin_arrivals(numbers.looked_at());
    }

    pub(super) fn add_event(&mut self, command: &Command, answer: &Answer) {
        self.add_event_on_f(command.letter(), answer);
        if answer.refusal().is_some() {
            return;
        }
        self.add_unlooked_of_status();
        let sort = match command {
            Command::Arrived(bytes) => self.add_arrival(bytes),
            Command::Boundary => Sort::Boundary,
            _ => Sort::OwnSending,
        };
        self.history.push(sort);
    }

    fn add_arrival(&mut self, bytes: &[u8]) -> Sort {
        let status = self.held.status.clone();
        let channel = status.channel;
        if let Ok(fields) = frame::read(channel.number(), bytes) {
            return self.add_readable(&status, &fields, bytes);
        }
        let causes = frame::read_causes(channel.number(), bytes);
        self.add_of('A', format!("arrival on {channel:?} with causes for {causes:?}"));
        let elsewhere = frame::read(channel.other().number(), bytes);
        if elsewhere.is_ok_and(|fields| status.misses(&fields).is_empty()) {
            self.add_of('A', format!("arrival on {channel:?} of a frame that is good on the other channel"));
        }
        if bytes.is_empty() {
            return Sort::NoBytes;
        }
        Sort::Refused
    }

    fn add_readable(&mut self, status: &SlotStatus, fields: &Fields, bytes: &[u8]) -> Sort {
        let (channel, kind, missed) = (status.channel, Kind::of(status), status.misses(fields));
        let (first, valid) = (missed.first().copied(), status.kept.is_some());
        match status.reason {
            Some(reason) => self.add_of('A', format!("{kind:?} behind {reason:?}, valid: {valid}: {first:?}")),
            None => self.add_of('A', format!("{kind:?} on {channel:?} misses {missed:?}")),
        }
        if let Some(kept) = &status.kept {
            let [later, before] = [fields, kept].map(|fields| fields.indicators.flags());
            let (words, differing) = (fields.words.cmp(&kept.words), later ^ before);
            let flags = format!("flags {} for {}", later & differing, before & differing);
            let good = format!("{kind:?} behind good: {flags}, words {words:?}");
            self.add_of('A', first.map_or(good, |test| format!("behind good: {test:?}")));
        }
        match missed[..] {
            [Test::Id] => self.add_of('A', format!("{kind:?} ID wrong in {}", fields.id ^ status.slot)),
            [Test::Cycle] => self.add_of('A', format!("{kind:?} cycle wrong in {}", fields.cycle ^ status.cycle)),
            _ => (),
        }
        if fields.id == status.slot && fields.cycle == status.cycle {
            self.add_look(status, fields);
        }
        self.add_null_arrival(status, bytes, &missed);
        self.add_frame(*fields, bytes, first.map_or(Tested::Good, Tested::Missed));
        first.map_or(Sort::Good, |_| Sort::Missing)
    }

    /// A frame that only words and leading bits can make wrong.
    fn add_look(&mut self, status: &SlotStatus, Fields { indicators, words, .. }: &Fields) {
        let [field_10, last] = [STATIC_WORDS, STATIC_SLOTS].map(|field| status.settings.field(field));
        let (slot, look, equal) = (status.slot, indicators.flags() & LOOK_BITS, u32::from(*words) == field_10);
        self.add_of('A', format!("look {look} in slot {slot} of {last}, words equal: {equal}"));
        self.add_of('A', format!("{:?} {words} words against {field_10}", Kind::of(status)));
    }

    /// What an opening and nothing but events led to.
    pub(super) fn add_shown_status(&mut self) {
        if self.status_from != Origin::Opened {
            return;
        }
        let shown = StatusNumbers::of(&self.held.status);
        let marks = format!("marks {} on {:?}", shown.marks, shown.channel);
        if with_conflict(shown.marks) != shown.marks {
            self.impossible.push(marks.clone());
        }
        self.add(marks);
        if self.history.len() <= LONGEST_HISTORY {
            self.add(format!("history {:?}", self.history));
        }
        if shown.kept {
            (0..5).for_each(|place| self.add(format!("kept bit {place}: {}", shown.header.flags >> place & 1)));
        }
    }
}

/// 32 of the 64 sets of marks: five marks are free of each other, and "conflict" follows from the others. Every order of
/// three events leads to one of them. A size that no frame has is never that of the words.
pub(super) fn required() -> Vec<String> {
    const SORTS: &str = "<NoBytes|Refused|Missing|Good|Boundary|OwnSending>";
    const CAUSES: &str =
        "TooFewBytes|Size, WordsAgainstSize|HeaderChecksum|WordsAgainstSize|IdRead|StartupWithoutSync|FrameChecksum";
    let [of_id, of_cycle] = [ID_BITS, CYCLE_BITS].map(|bits| any((0..bits).map(|bit| 1 << bit)));
    let marks = any((0..64).filter(|marks| with_conflict(*marks) == *marks));
    let mut all = vec![
        format!("marks <{marks}> on <A|B>"),
        format!("history [{SORTS}, {SORTS}, {SORTS}]"),
        "kept bit <0..4>: <0|1>".to_string(),
        "arrival on <A|B> of a frame that is good on the other channel".to_string(),
        format!("arrival on <A|B> with causes for [<{CAUSES}>]"),
        format!("<Static|Dynamic> ID wrong in <{of_id}>"),
        format!("<Static|Dynamic> cycle wrong in <{of_cycle}>"),
        "Static behind good: flags <1|2|4|8|16> for 0, words Equal".to_string(),
        "Static behind good: flags 0 for <1|2|4|8|16>, words Equal".to_string(),
        "Dynamic behind good: flags <1 for 0|2 for 0|0 for 1|0 for 2>, words Equal".to_string(),
        "Dynamic behind good: flags 0 for 0, words <Less|Greater>".to_string(),
        "behind good: <Id|Cycle|StaticWords|DynamicSync|DynamicNull>".to_string(),
        format!("<Static|Dynamic> <0|1|64|{}|{MOST_WORDS}> words against <0|{MOST_WORDS}>", MOST_WORDS - 1),
    ];
    for kind in Kind::BOTH {
        all.extend(selections(kind.tests()).iter().map(|missed| format!("{kind:?} on <A|B> misses {missed:?}")));
        let missed = any(kind.tests().iter().map(|test| format!("Some({test:?})")));
        all.push(format!("{kind:?} behind <{MISSED}>, valid: <false|true>: <None|{missed}>"));
        all.push(format!("{kind:?} behind SecondGoodFrame, valid: true: <None|{missed}>"));
    }
    all.extend(borders());
    all
}

fn borders() -> Vec<String> {
    let (fewest, most) = settings::ends(STATIC_SLOTS);
    let around = BORDERS.map(|last| (u32::from(last), any([last - 1, last, last + 1])));
    let far = [(fewest, any([HIGHEST_ID])), (most, any([1, HIGHEST_ID]))];
    let looks = any(LOOKS);
    let border = |(last, slots)| format!("look <{looks}> in slot <{slots}> of {last}, words equal: <false|true>");
    around.into_iter().chain(far).map(border).collect()
}
