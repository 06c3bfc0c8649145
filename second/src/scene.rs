//! A slot to be judged, with frames and statuses made for it: right for it, or wrong where a case asks for it.

use std::ops::RangeInclusive;

use crate::channel::Channel;
use crate::checksum_pair::ChecksumPair;
use crate::draft::{fair_cycle, fair_words, Draft};
use crate::faults::other_words;
use crate::frame::{Indicators, HIGHEST_CYCLE, HIGHEST_ID};
use crate::marks::Mark;
use crate::random::Random;
use crate::reason::{Reason, Test};
use crate::refusal::Refusal;
use crate::script::{Command, Opening};
use crate::settings::{Settings, RANGES, STATIC_SLOTS, STATIC_WORDS};
use crate::sheet_mark::SheetMark;
use crate::slot::SlotStatus;
use crate::status_numbers::{HeaderNumbers, StatusNumbers};
use crate::unreadable::Unreadable;

#[derive(Clone, Copy, Debug, PartialEq, Eq, PartialOrd, Ord)]
pub enum Kind {
    Static,
    Dynamic,
}

impl Kind {
    pub const BOTH: [Kind; 2] = [Kind::Static, Kind::Dynamic];

    pub fn of(status: &SlotStatus) -> Kind {
        if status.is_static() {
            Kind::Static
        } else {
            Kind::Dynamic
        }
    }

    /// The tests that a frame can miss in such a slot.
    pub fn tests(self) -> &'static [Test] {
        match self {
            Kind::Static => &[Test::Id, Test::Cycle, Test::StaticWords],
            Kind::Dynamic => &[Test::Id, Test::Cycle, Test::DynamicSync, Test::DynamicNull],
        }
    }
}

#[derive(Clone, Copy, Debug)]
pub struct Scene {
    pub settings: Settings,
    pub channel: Channel,
    pub slot: u16,
    pub cycle: u8,
    /// What the slot is by its number; whoever makes the scene says so.
    pub kind: Kind,
}

impl Scene {
    /// A slot that opens, everything else at random.
    pub fn fair(random: &mut Random, channel: Channel, kind: Kind) -> Scene {
        let settings = fair_settings(random);
        let last_static = settings.field(STATIC_SLOTS) as usize;
        let slot = match kind {
            Kind::Static => random.between(1, last_static),
            Kind::Dynamic => random.between(last_static + 1, HIGHEST_ID.into()),
        };
        Scene { settings, channel, slot: slot as u16, cycle: fair_cycle(random), kind }
    }

    pub fn any(random: &mut Random) -> Scene {
        let kind = random.pick(&Kind::BOTH);
        Scene::any_of(random, kind)
    }

    pub fn any_of(random: &mut Random, kind: Kind) -> Scene {
        let channel = random.pick(&Channel::BOTH);
        Scene::fair(random, channel, kind)
    }

    /// Slot 1, which is static with every number of static slots.
    pub fn first_slot(random: &mut Random) -> Scene {
        Scene { slot: 1, ..Scene::any_of(random, Kind::Static) }
    }

    pub fn opening(&self) -> Opening {
        Opening { settings: self.settings, channel: self.channel.number(), slot: self.slot, cycle: self.cycle }
    }

    pub fn open(&self) -> Command {
        Command::OpenSlot(self.opening())
    }

    /// The status of the slot right after its opening.
    pub fn fresh(&self) -> StatusNumbers {
        StatusNumbers {
            settings: self.settings,
            channel: self.channel,
            slot: self.slot,
            cycle: self.cycle,
            ..StatusNumbers::default()
        }
    }

    /// The status with these marks, with the reason and the frame that two of them ask for, and with checksums where a
    /// third allows them.
    pub fn marked(&self, random: &mut Random, marks: u8) -> StatusNumbers {
        let [syntax_error, content_error, valid] =
            [Mark::SyntaxError, Mark::ContentError, Mark::Valid].map(|mark| marks & mark.bit() != 0);
        let reason = if content_error { any_reason(random, valid).number() } else { 0 };
        let checksums = if syntax_error { ChecksumPair::any(random) } else { ChecksumPair::NONE };
        let status = StatusNumbers { marks, reason, checksums, ..self.fresh() };
        if !valid {
            return status;
        }
        let header = HeaderNumbers::of(&self.good(random).fields());
        StatusNumbers { kept: true, header, ..status }
    }

    /// A frame that misses no test.
    pub fn good(&self, random: &mut Random) -> Draft {
        self.missing(random, &[])
    }

    /// A frame that misses the named tests and no other; all of them are tests of this kind of slot.
    pub fn missing(&self, random: &mut Random, tests: &[Test]) -> Draft {
        let right_words = match self.kind {
            Kind::Static => self.settings.field(STATIC_WORDS) as u8,
            Kind::Dynamic => fair_words(random),
        };
        let wrong = |test| tests.contains(&test);
        let words = if wrong(Test::StaticWords) { other_words(random, right_words) } else { right_words };
        let fair = Draft::fair(random, self.channel, words);
        Draft {
            id: if wrong(Test::Id) { other_id(random, self.slot) } else { self.slot },
            cycle: if wrong(Test::Cycle) { other_cycle(random, self.cycle) } else { self.cycle },
            indicators: self.indicators(random, fair.indicators, tests),
            ..fair
        }
    }

    fn indicators(&self, random: &mut Random, fair: Indicators, missed: &[Test]) -> Indicators {
        if self.kind == Kind::Static {
            return fair;
        }
        let sync = missed.contains(&Test::DynamicSync);
        Indicators { sync, startup: sync && random.coin(), null_frame: !missed.contains(&Test::DynamicNull), ..fair }
    }

    /// A frame that would be good if there were no cause for this read refusal.
    pub fn refused(&self, random: &mut Random, refusal: Refusal) -> Unreadable {
        let good = self.good(random);
        Unreadable::any(random, good, refusal)
    }

    /// A frame that is good on the other channel.
    pub fn strange(&self, random: &mut Random) -> Unreadable {
        let good = Scene { channel: self.channel.other(), ..*self }.good(random);
        Unreadable::by_trailer(&good, self.channel)
    }
}

/// 02 C-15: (f) is sound only with "valid".
fn any_reason(random: &mut Random, valid: bool) -> Reason {
    if valid {
        return random.pick(&Reason::ALL);
    }
    Reason::Missed(random.pick(&Test::IN_ORDER))
}

/// Settings in range, the ends of the ranges more often than chance would have it, with any mark.
pub fn fair_settings(random: &mut Random) -> Settings {
    let fields = RANGES.map(|range| fair_value(random, &range));
    let settings = Settings { fields, sends_sync: random.coin(), mark: SheetMark::any(random) };
    // Few words as a rule, to keep scripts short.
    settings.with_field(STATIC_WORDS, fair_words(random).into())
}

fn fair_value(random: &mut Random, range: &RangeInclusive<u32>) -> u32 {
    let (lowest, highest) = (*range.start(), *range.end());
    if random.one_in(4) {
        return random.pick(&[lowest, lowest + 1, highest - 1, highest]);
    }
    random.between(lowest as usize, highest as usize) as u32
}

/// An ID in its range that isn't this one, as a rule one beside it.
fn other_id(random: &mut Random, id: u16) -> u16 {
    let near = [id.wrapping_add(1), id.wrapping_sub(1)];
    let far = random.between(1, HIGHEST_ID.into()) as u16;
    let fallback = if id == 1 { 2 } else { 1 };
    let choice = if random.coin() { random.pick(&near) } else { far };
    if choice == id || !(1..=HIGHEST_ID).contains(&choice) {
        return fallback;
    }
    choice
}

/// A cycle in its range that isn't this one, as a rule one beside it.
fn other_cycle(random: &mut Random, cycle: u8) -> u8 {
    let last = usize::from(HIGHEST_CYCLE);
    let step = if random.coin() { random.pick(&[1, last]) } else { random.between(1, last) };
    ((usize::from(cycle) + step) % (last + 1)) as u8
}

#[cfg(test)]
mod tests {
    use super::*;
    use crate::frame;
    use crate::refused::Refused;

    #[test]
    fn frames_are_as_asked_for() {
        let mut random = Random::from_seed(3);
        for _ in 0..200 {
            let scene = Scene::any(&mut random);
            let channel = scene.channel.number();
            let good = scene.good(&mut random);
            assert_eq!((good.id, good.cycle), (scene.slot, scene.cycle));
            assert_eq!(frame::read(channel, &good.bytes()), Ok(good.fields()));
            let wrong = scene.missing(&mut random, scene.kind.tests());
            assert!(wrong.id != scene.slot && wrong.cycle != scene.cycle);
            assert_eq!(frame::read(channel, &wrong.bytes()), Ok(wrong.fields()));
            let strange = scene.strange(&mut random);
            let refused = Refused { refusal: Refusal::FrameChecksum, checksums: strange.checksums };
            assert_eq!(frame::read(channel, &strange.bytes), Err(refused));
        }
    }
}
