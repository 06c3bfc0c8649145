//! A reader of the wire in the numbers of a script, as `V` hands it in and `Z` shows it.

use crate::bit_clock::{BitClock, NAMED_SAMPLES};
use crate::channel::Channel;
use crate::decoder::{Decoder, Phase};
use crate::reader::Reader;

/// Phases by their numbers.
pub const WAITING: u8 = 0;
pub const START: u8 = 1;
pub const FRAME_START: u8 = 2;
pub const BYTE_START_HIGH: u8 = 3;
pub const BYTE_START_LOW: u8 = 4;
pub const BYTE: u8 = 5;
pub const END_LOW: u8 = 6;
pub const END_HIGH: u8 = 7;

/// The highest phase that a script may name.
pub const LAST_PHASE: u8 = END_HIGH;

#[derive(Clone, Copy, Debug, Default, PartialEq, Eq)]
pub struct ReaderNumbers {
    pub channel: Channel,
    pub samples: u8,
    pub seen: u8,
    pub voted: bool,
    pub counter: u8,
    pub realigns: bool,
    pub timer: u8,
    pub phase: u8,
    /// How many bits have come in phases 1, 2 and 5.
    pub number: u8,
    /// The number that they make in phase 5.
    pub value: u8,
    pub count: u16,
    pub since: u32,
}

/// Phase, number and value; what a phase doesn't have is 0.
fn numbers_of(phase: Phase) -> (u8, u8, u8) {
    match phase {
        Phase::Waiting => (WAITING, 0, 0),
        Phase::Start(low) => (START, low, 0),
        Phase::FrameStart(high) => (FRAME_START, high, 0),
        Phase::ByteStartHigh => (BYTE_START_HIGH, 0, 0),
        Phase::ByteStartLow => (BYTE_START_LOW, 0, 0),
        Phase::Byte(bits, value) => (BYTE, bits, value),
        Phase::EndLow => (END_LOW, 0, 0),
        Phase::EndHigh => (END_HIGH, 0, 0),
    }
}

impl ReaderNumbers {
    pub fn of(reader: &Reader) -> ReaderNumbers {
        let Reader { channel, clock, timer, decoder } = *reader;
        let BitClock { samples, seen, voted, counter, realigns } = clock;
        let Decoder { phase, count, since } = decoder;
        let (phase, number, value) = numbers_of(phase);
        ReaderNumbers { channel, samples, seen, voted, counter, realigns, timer, phase, number, value, count, since }
    }

    /// That of a phase which a script may name.
    pub fn reader(&self) -> Reader {
        let ReaderNumbers { channel, seen, voted, counter, realigns, timer, count, since, .. } = *self;
        let samples = self.samples & NAMED_SAMPLES;
        Reader {
            channel,
            clock: BitClock { samples, seen, voted, counter, realigns },
            timer,
            decoder: Decoder { phase: self.named_phase(), count, since },
        }
    }

    fn named_phase(&self) -> Phase {
        match self.phase {
            START => Phase::Start(self.number),
            FRAME_START => Phase::FrameStart(self.number),
            BYTE_START_HIGH => Phase::ByteStartHigh,
            BYTE_START_LOW => Phase::ByteStartLow,
            BYTE => Phase::Byte(self.number, self.value),
            END_LOW => Phase::EndLow,
            END_HIGH => Phase::EndHigh,
            _ => Phase::Waiting,
        }
    }

    /// The numbers without what a script says but nobody looks at: unnamed samples, and numbers that a phase doesn't have.
    pub fn looked_at(&self) -> ReaderNumbers {
        let number = if [START, FRAME_START, BYTE].contains(&self.phase) { self.number } else { 0 };
        let value = if self.phase == BYTE { self.value } else { 0 };
        ReaderNumbers { samples: self.samples & NAMED_SAMPLES, number, value, ..*self }
    }

    /// The line of `Z` before the memory.
    pub fn line(&self) -> String {
        let heard = [self.channel.number(), self.samples, self.seen, self.voted.into(), self.counter];
        let going_on = [self.realigns.into(), self.timer, self.phase, self.number, self.value];
        let numbers: Vec<String> = [heard, going_on].concat().iter().map(u8::to_string).collect();
        format!("reader {} {} {}", numbers.join(" "), self.count, self.since)
    }
}

#[cfg(test)]
mod tests {
    use super::*;

    fn all_different() -> ReaderNumbers {
        ReaderNumbers {
            channel: Channel::B,
            samples: 10,
            seen: 201,
            voted: true,
            counter: 202,
            realigns: true,
            timer: 203,
            phase: BYTE,
            number: 204,
            value: 205,
            count: 65534,
            since: u32::MAX,
        }
    }

    #[test]
    fn every_number_has_its_place() {
        assert_eq!(all_different().line(), "reader 1 10 201 1 202 1 203 5 204 205 65534 4294967295");
        assert_eq!(ReaderNumbers::default().line(), format!("reader{}", " 0".repeat(12)));
    }

    #[test]
    fn numbers_go_there_and_back() {
        assert_eq!(ReaderNumbers::default().reader(), Reader::default());
        for phase in 0..=LAST_PHASE {
            let numbers = ReaderNumbers { phase, samples: 0xFA, ..all_different() };
            assert_eq!(ReaderNumbers::of(&numbers.reader()), numbers.looked_at());
            let unlooked = phase != START && phase != FRAME_START && phase != BYTE;
            assert_eq!(numbers.looked_at().number == 0, unlooked);
            assert_eq!(numbers.looked_at().samples, 10);
        }
    }
}
