//! The frames that are known whole on both channels, byte by byte as they were written down.

use crate::channel::Channel;
use crate::checksum_pair::ChecksumPair;
use crate::draft::Draft;
use crate::frame::{Indicators, HIGHEST_CYCLE, HIGHEST_ID, LARGEST_PAYLOAD};
use crate::script::{OnChannel, Write};

pub struct ListedFrame {
    pub header: [u8; 5],
    pub payload: &'static [u8],
    /// That on A and that on B.
    trailers: [[u8; 3]; 2],
    /// What the header says, as a writer is given it.
    pub flags: u8,
    pub id: u16,
    pub cycle: u8,
    /// The numbers of a read's line between that of the answer and the payload.
    pub fields: &'static str,
    pub bench_line: &'static str,
}

/// 01 "Numbers to check against": ID 1, all indicators 0 but null frame bit 1, 0 words, cycle 0.
pub const SHORT: ListedFrame = ListedFrame {
    header: [0x20, 0x01, 0x01, 0xA7, 0xC0],
    payload: &[],
    trailers: [[0xD0, 0x5E, 0xEA], [0x3B, 0xD0, 0x8F]],
    flags: 0b00100,
    id: 1,
    cycle: 0,
    fields: "0 0 1 0 0 1 0 1695 0",
    bench_line: "accepted 1 0 0",
};

/// A startup and sync frame, null frame bit 1: ID 3, cycle 5 and four bytes of payload.
pub const STARTUP: ListedFrame = ListedFrame {
    header: [0x38, 0x03, 0x05, 0x57, 0x05],
    payload: &[0x01, 0x02, 0x03, 0x04],
    trailers: [[0x85, 0xBF, 0x65], [0xE3, 0xE5, 0x60]],
    flags: 0b11100,
    id: 3,
    cycle: 5,
    fields: "0 0 1 1 1 3 2 1372 5",
    bench_line: "accepted 3 5 2",
};

/// The longest null frame with the highest ID and cycle, all bytes of its payload 0.
pub const LONG: ListedFrame = ListedFrame {
    header: [0x07, 0xFF, 0xFE, 0x4D, 0x7F],
    payload: &[0; LARGEST_PAYLOAD],
    trailers: [[0x38, 0x8F, 0xC6], [0x59, 0xBA, 0xF1]],
    flags: 0b00000,
    id: HIGHEST_ID,
    cycle: HIGHEST_CYCLE,
    fields: "0 0 0 0 0 2047 127 309 63",
    bench_line: "accepted 2047 63 127",
};

pub const ALL: [ListedFrame; 3] = [SHORT, STARTUP, LONG];

/// STARTUP as a null frame, which is read and by 02 C-16 not written.
pub const NOT_ZEROS: ListedFrame = ListedFrame {
    header: [0x18, 0x03, 0x05, 0x57, 0x05],
    trailers: [[0x6F, 0x72, 0xBA], [0x09, 0x28, 0xBF]],
    flags: 0b11000,
    fields: "0 0 0 1 1 3 2 1372 5",
    ..STARTUP
};

/// The same null frame as it is written.
pub const ZEROS: ListedFrame =
    ListedFrame { payload: &[0; 4], trailers: [[0x0D, 0xEF, 0x93], [0x6B, 0xB5, 0x96]], ..NOT_ZEROS };

/// Written as well, with the preamble bit.
pub const ZEROS_WITH_PREAMBLE: ListedFrame = ListedFrame {
    header: [0x58, 0x03, 0x05, 0x57, 0x05],
    trailers: [[0x85, 0x19, 0xE6], [0xE3, 0x43, 0xE3]],
    flags: 0b11010,
    fields: "0 1 0 1 1 3 2 1372 5",
    ..ZEROS
};

pub const NULL_FRAMES: [ListedFrame; 3] = [NOT_ZEROS, ZEROS, ZEROS_WITH_PREAMBLE];

impl ListedFrame {
    pub fn trailer(&self, channel: Channel) -> [u8; 3] {
        self.trailers[usize::from(channel.number())]
    }

    pub fn bytes(&self, channel: Channel) -> Vec<u8> {
        [&self.header, self.payload, &self.trailer(channel)].concat()
    }

    /// 02 C-18: what is told of this channel's frame where it is read on the other one.
    pub fn strange(&self, channel: Channel) -> ChecksumPair {
        let [found, expected] = [channel, channel.other()].map(|channel| {
            let [high, middle, low] = self.trailer(channel);
            u32::from_be_bytes([0, high, middle, low])
        });
        ChecksumPair { found, expected }
    }

    /// A write of the frame, in a room for just that.
    pub fn write(&self, channel: Channel) -> Write {
        let ListedFrame { flags, id, cycle, .. } = *self;
        let (channel, room) = (channel.number(), self.bytes(channel).len());
        Write { channel, flags, id, cycle, payload: self.payload.to_vec(), room }
    }

    /// The first bytes, or all of them and zeros behind: as many as asked for.
    pub fn sized(&self, channel: Channel, size: usize) -> Vec<u8> {
        let mut bytes = self.bytes(channel);
        bytes.resize(size, 0);
        bytes
    }
}

/// What the fourth and the eighth of these tell (02 C-18): a header checksum and trailers whose last bit is turned over.
const WRONG_HEADER: ChecksumPair = ChecksumPair { found: 0x69E, expected: 0x69F };
const WRONG_TRAILERS: [ChecksumPair; 2] =
    [ChecksumPair { found: 0xD05EEB, expected: 0xD05EEA }, ChecksumPair { found: 0x3BD08E, expected: 0x3BD08F }];

/// The shortest frame, and what is made of it for each refusal of a read, 1 to 8 in this order, with what they tell.
pub fn refused(channel: Channel) -> [(OnChannel, ChecksumPair); 8] {
    let good = Draft::plain(channel, SHORT.flags, SHORT.id, 0, SHORT.cycle);
    let startup = Indicators { startup: true, ..good.indicators };
    let (own, foreign, none) = (channel.number(), 2, ChecksumPair::NONE);
    let wrong_trailer = WRONG_TRAILERS[usize::from(own)];
    let cases = [
        (foreign, SHORT.bytes(channel), none),
        (own, SHORT.sized(channel, 7), none),
        (own, SHORT.sized(channel, 9), none),
        (own, Draft { header_checksum_change: 1, ..good.clone() }.bytes(), WRONG_HEADER),
        (own, SHORT.sized(channel, 10), none),
        (own, Draft { id: 0, ..good.clone() }.bytes(), none),
        (own, Draft { indicators: startup, ..good.clone() }.bytes(), none),
        (own, Draft { frame_checksum_change: 1, ..good }.bytes(), wrong_trailer),
    ];
    cases.map(|(channel, bytes, checksums)| (OnChannel { channel, bytes }, checksums))
}
