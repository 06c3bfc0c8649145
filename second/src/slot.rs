//! Judgement of one slot on one channel by 01 "Judging a slot" and "Refusal numbers", both as 02 C-15 and C-18 amend them.

use crate::channel::Channel;
use crate::checksum_pair::ChecksumPair;
use crate::frame::{self, Fields, HIGHEST_CYCLE, HIGHEST_ID};
use crate::marks::{Mark, Marks};
use crate::reason::{Reason, Test};
use crate::refusal::{holding, refuse_first, Refusal};
use crate::settings::{Settings, STATIC_SLOTS, STATIC_WORDS};

/// The default one is all zeros, which isn't sound.
#[derive(Clone, Debug, Default, PartialEq, Eq)]
pub struct SlotStatus {
    pub settings: Settings,
    pub channel: Channel,
    pub slot: u16,
    pub cycle: u8,
    pub marks: Marks,
    pub reason: Option<Reason>,
    pub kept: Option<Fields>,
    /// 02 C-18: those that the first syntax error told, which may be none.
    pub checksums: ChecksumPair,
}

pub enum Event<'a> {
    Arrived(&'a [u8]),
    Boundary,
    OwnSending,
}

/// What one arrival comes to.
enum Verdict {
    Unreadable(ChecksumPair),
    Missed(Test),
    Good(Fields),
}

/// Opens a slot.
pub fn open(settings: Settings, channel: u8, slot: u16, cycle: u8) -> Result<SlotStatus, Refusal> {
    refuse_first(&opening_causes(&settings, channel, slot, cycle))?;
    Ok(SlotStatus { settings, channel: Channel::from_number(channel)?, slot, cycle, ..SlotStatus::default() })
}

/// Every cause for a refusal of opening a slot, in the order 17, 1, 9, 11.
pub fn opening_causes(settings: &Settings, channel: u8, slot: u16, cycle: u8) -> Vec<Refusal> {
    holding([
        (Refusal::Setting, settings.first_out_of_range().is_some()),
        (Refusal::Channel, Channel::from_number(channel).is_err()),
        (Refusal::IdGiven, !(1..=HIGHEST_ID).contains(&slot)),
        (Refusal::Cycle, cycle > HIGHEST_CYCLE),
    ])
}

impl SlotStatus {
    /// The status after one more event; the only refusal is that of an unsound one.
    pub fn after(&self, event: &Event) -> Result<SlotStatus, Refusal> {
        if !self.is_sound() {
            return Err(Refusal::NotSound);
        }
        let mut after = self.clone();
        match event {
            Event::Arrived(bytes) => after.take_in(self.judge(bytes)),
            Event::Boundary => after.marks.set(Mark::BoundaryViolation),
            Event::OwnSending => after.marks.set(Mark::OwnSending),
        }
        if after.sent_and_arrived() {
            after.marks.set(Mark::Conflict);
        }
        Ok(after)
    }

    fn judge(&self, bytes: &[u8]) -> Verdict {
        match frame::read(self.channel.number(), bytes) {
            Err(refused) => Verdict::Unreadable(refused.checksums),
            Ok(fields) => self.misses(&fields).first().map_or(Verdict::Good(fields), |first| Verdict::Missed(*first)),
        }
    }

    fn take_in(&mut self, verdict: Verdict) {
        match verdict {
            Verdict::Unreadable(checksums) => self.set_syntax_error(checksums),
            Verdict::Missed(test) => self.set_content_error(Reason::Missed(test)),
            // 02 C-15: the first good frame stays the kept one, and one like it is a second frame as well.
            Verdict::Good(_) if self.marks.has(Mark::Valid) => self.set_content_error(Reason::SecondGoodFrame),
            Verdict::Good(fields) => {
                self.marks.set(Mark::Valid);
                self.kept = Some(fields);
            }
        }
    }

    /// What the first one told stays, also where that was nothing.
    fn set_syntax_error(&mut self, checksums: ChecksumPair) {
        if !self.marks.has(Mark::SyntaxError) {
            self.checksums = checksums;
        }
        self.marks.set(Mark::SyntaxError);
    }

    /// The first reason stays.
    fn set_content_error(&mut self, reason: Reason) {
        self.marks.set(Mark::ContentError);
        self.reason.get_or_insert(reason);
    }

    /// The tests that a frame misses here, in their order.
    pub fn misses(&self, fields: &Fields) -> Vec<Test> {
        Test::IN_ORDER.into_iter().filter(|test| !self.passes(*test, fields)).collect()
    }

    fn passes(&self, test: Test, fields: &Fields) -> bool {
        let indicators = fields.indicators;
        match test {
            Test::Id => fields.id == self.slot,
            Test::Cycle => fields.cycle == self.cycle,
            Test::StaticWords => !self.is_static() || u32::from(fields.words) == self.settings.field(STATIC_WORDS),
            Test::DynamicSync => self.is_static() || !(indicators.sync || indicators.startup),
            // A null frame has its null frame bit 0.
            Test::DynamicNull => self.is_static() || indicators.null_frame,
        }
    }

    pub fn is_static(&self) -> bool {
        u32::from(self.slot) <= self.settings.field(STATIC_SLOTS)
    }

    /// Every arrival leaves one of three marks, so that an arrival shows in them.
    fn sent_and_arrived(&self) -> bool {
        let arrived = [Mark::SyntaxError, Mark::ContentError, Mark::Valid];
        self.marks.has(Mark::OwnSending) && arrived.into_iter().any(|mark| self.marks.has(mark))
    }

    /// 01 "Refusal numbers", 02 C-15 and C-18: what makes a slot status sound.
    pub fn is_sound(&self) -> bool {
        self.would_open()
            && self.reason.is_some() == self.marks.has(Mark::ContentError)
            && self.kept.is_some() == self.marks.has(Mark::Valid)
            && self.kept.iter().all(|kept| frame::could_be_read(kept) && self.misses(kept).is_empty())
            && (self.reason != Some(Reason::SecondGoodFrame) || self.marks.has(Mark::Valid))
            && (self.checksums.is_none() || self.marks.has(Mark::SyntaxError))
            && self.marks.has(Mark::Conflict) == self.sent_and_arrived()
    }

    fn would_open(&self) -> bool {
        open(self.settings, self.channel.number(), self.slot, self.cycle).is_ok()
    }
}
