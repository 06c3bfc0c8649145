//! Frames put together by hand, right in every part or wrong where a case asks for it.

use crate::bits;
use crate::channel::Channel;
use crate::checksum::FRAME;
use crate::checksum_pair::ChecksumPair;
use crate::frame::{self, Fields, Indicators, HIGHEST_CYCLE, HIGHEST_ID, MOST_WORDS, TRAILER_BYTES};
use crate::random::Random;
use crate::script::{OnChannel, Write};

#[derive(Clone, Debug, PartialEq, Eq)]
pub struct Draft {
    pub channel: Channel,
    pub indicators: Indicators,
    pub id: u16,
    /// The words that the header claims, whatever the payload's size.
    pub words: u8,
    pub cycle: u8,
    pub payload: Vec<u8>,
    /// Bits turned over in the header checksum, which is right for the fields otherwise.
    pub header_checksum_change: u16,
    /// Bits turned over in the frame checksum, which is right for the bytes otherwise.
    pub frame_checksum_change: u32,
}

impl Draft {
    /// A frame that is right in every part, everything else at random.
    pub fn fair(random: &mut Random, channel: Channel, words: u8) -> Draft {
        Draft {
            channel,
            indicators: fair_indicators(random),
            id: fair_id(random),
            words,
            cycle: fair_cycle(random),
            payload: random.bytes(2 * usize::from(words)),
            header_checksum_change: 0,
            frame_checksum_change: 0,
        }
    }

    /// A frame that is right in every part, everything given but the payload, which is all zeros.
    pub fn plain(channel: Channel, flags: u8, id: u16, words: u8, cycle: u8) -> Draft {
        Draft {
            channel,
            indicators: Indicators::from_flags(flags),
            id,
            words,
            cycle,
            payload: vec![0; 2 * usize::from(words)],
            header_checksum_change: 0,
            frame_checksum_change: 0,
        }
    }

    /// The same frame with the reserved bit 0.
    pub fn unreserved(self) -> Draft {
        Draft { indicators: Indicators { reserved: false, ..self.indicators }, ..self }
    }

    /// The same frame as it can be written: with the reserved bit 0, and a null frame with zeros (02 C-16).
    pub fn writable(self) -> Draft {
        if self.indicators.null_frame {
            return self.unreserved();
        }
        Draft { payload: vec![0; self.payload.len()], ..self.unreserved() }
    }

    /// The same frame with another number of words, and a payload of that size.
    pub fn with_words(self, random: &mut Random, words: u8) -> Draft {
        Draft { words, payload: random.bytes(2 * usize::from(words)), ..self }
    }

    pub fn fields(&self) -> Fields {
        let fields = Fields {
            indicators: self.indicators,
            id: self.id,
            words: self.words,
            header_checksum: 0,
            cycle: self.cycle,
        };
        let header_checksum = fields.right_header_checksum() ^ self.header_checksum_change;
        Fields { header_checksum, ..fields }
    }

    pub fn bytes(&self) -> Vec<u8> {
        let mut frame = frame::frame_bytes(self.channel, &self.fields(), &self.payload);
        let trailer = frame.len() - TRAILER_BYTES;
        let changes = bits::to_bytes(&bits::of_number(self.frame_checksum_change, 8 * TRAILER_BYTES));
        for (byte, change) in frame[trailer..].iter_mut().zip(changes) {
            *byte ^= change;
        }
        frame
    }

    /// The same frame with the ID for which this header checksum is right, which may be 0.
    pub fn with_id_for(self, checksum: u16) -> Draft {
        let fields = self.fields();
        let right = |id: &u16| Fields { id: *id, ..fields }.right_header_checksum() == checksum;
        // The ID has as many bits as the header checksum, so that each of these belongs to one.
        let id = (0..=HIGHEST_ID).find(right).expect("some ID has this header checksum");
        Draft { id, ..self }
    }

    /// The same frame with other last bytes in its payload, which has four at least, so that this frame checksum is right.
    pub fn with_frame_checksum(mut self, checksum: u32) -> Draft {
        let (bytes, last) = (self.bytes(), self.payload.len() - TRAILER_BYTES);
        let before = frame::checksum_on(self.channel, &bytes[..bytes.len() - 2 * TRAILER_BYTES]);
        // As many bits as the checksum has turn one of them into any other.
        let turning = before ^ FRAME.before_zeros(checksum);
        self.payload.splice(last.., bits::to_bytes(&bits::of_number(turning, 8 * TRAILER_BYTES)));
        self
    }

    /// 02 C-18: the header checksum in the bytes, and the right one.
    pub fn header_checksums(&self) -> ChecksumPair {
        let found = self.fields().header_checksum;
        ChecksumPair { found: found.into(), expected: (found ^ self.header_checksum_change).into() }
    }

    /// The trailer in the bytes, and the right one on this channel.
    pub fn frame_checksums_on(&self, channel: Channel) -> ChecksumPair {
        let right = Draft { channel, frame_checksum_change: 0, ..self.clone() };
        ChecksumPair { found: trailer_of(&self.bytes()), expected: trailer_of(&right.bytes()) }
    }

    pub fn on_channel(&self) -> OnChannel {
        OnChannel { channel: self.channel.number(), bytes: self.bytes() }
    }

    /// A write of all that a read of this frame gives, which is a good one.
    pub fn again(&self) -> Write {
        Write::again(&self.on_channel()).expect("a good frame is accepted")
    }
}

/// The last three bytes as a number.
fn trailer_of(frame: &[u8]) -> u32 {
    frame[frame.len() - TRAILER_BYTES..].iter().fold(0, |number, byte| number << 8 | u32::from(*byte))
}

/// Any of the five bits, but never startup without sync.
pub fn fair_indicators(random: &mut Random) -> Indicators {
    let indicators = Indicators::from_flags(random.below(32) as u8);
    Indicators { sync: indicators.sync || indicators.startup, ..indicators }
}

/// An ID in its range, its ends more often than chance would have it.
pub fn fair_id(random: &mut Random) -> u16 {
    if random.one_in(4) {
        return random.pick(&[1, 2, 1023, 1024, HIGHEST_ID - 1, HIGHEST_ID]);
    }
    random.between(1, usize::from(HIGHEST_ID)) as u16
}

pub fn fair_cycle(random: &mut Random) -> u8 {
    if random.one_in(4) {
        return random.pick(&[0, 1, 31, 32, HIGHEST_CYCLE - 1, HIGHEST_CYCLE]);
    }
    random.below(usize::from(HIGHEST_CYCLE) + 1) as u8
}

/// Few words as a rule, to keep scripts short, and any number now and then.
pub fn fair_words(random: &mut Random) -> u8 {
    if random.one_in(16) {
        return random.between(0, MOST_WORDS.into()) as u8;
    }
    random.between(0, 10) as u8
}

/// Some of the channel numbers that are neither channel's.
pub const FOREIGN_CHANNELS: [u8; 4] = [2, 3, 128, 255];

pub fn foreign_channel(random: &mut Random) -> u8 {
    if random.coin() {
        return random.pick(&FOREIGN_CHANNELS);
    }
    random.between(2, 255) as u8
}

#[cfg(test)]
mod tests {
    use super::*;
    use crate::listed_frames::{LONG, SHORT, STARTUP};

    #[test]
    fn checksums_by_hand() {
        let short = Draft::plain(Channel::A, SHORT.flags, SHORT.id, 0, SHORT.cycle);
        let pair = |found, expected| ChecksumPair { found, expected };
        assert_eq!(short.frame_checksums_on(Channel::A), pair(0xD05EEA, 0xD05EEA));
        assert_eq!(short.frame_checksums_on(Channel::B), pair(0xD05EEA, 0x3BD08F));
        let changed = Draft { header_checksum_change: 0x400, frame_checksum_change: 0xD05EEA, ..short };
        assert_eq!(changed.header_checksums(), pair(0x29F, 0x69F));
        let changed = Draft { header_checksum_change: 0, ..changed };
        assert_eq!(changed.frame_checksums_on(Channel::A), pair(0, 0xD05EEA));
        assert_eq!(changed.header_checksums(), pair(0x69F, 0x69F));
    }

    /// Payload and ID of frames that are known whole.
    #[test]
    fn checksums_as_wanted() {
        for channel in Channel::BOTH {
            let plain = Draft::plain(channel, STARTUP.flags, STARTUP.id, 2, STARTUP.cycle);
            let startup = Draft { payload: STARTUP.payload.to_vec(), ..plain.clone() };
            let found = trailer_of(&STARTUP.bytes(channel));
            let front = Draft { payload: vec![1, 0, 0, 0], ..plain };
            assert_eq!(front.with_frame_checksum(found), startup);
            for wanted in [0, 1, 9_999_999, 10_000_000, 0xFF_FFFF] {
                let draft = startup.clone().with_frame_checksum(wanted);
                assert_eq!(draft.frame_checksums_on(channel), ChecksumPair { found: wanted, expected: wanted });
            }
            let long = Draft::plain(channel, LONG.flags, 1, MOST_WORDS, LONG.cycle);
            assert_eq!(long.with_id_for(309).id, HIGHEST_ID);
        }
        assert_eq!(Draft::plain(Channel::A, SHORT.flags, SHORT.id, 0, 0).with_id_for(0).id, 104);
    }
}
