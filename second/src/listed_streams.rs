//! Bits on the wire of the listed frames, worked out by hand from 02 C-11, group by group.

use crate::channel::Channel::{self, A, B};
use crate::listed_frames::{ListedFrame, LONG, SHORT, STARTUP};

pub struct ListedStream {
    pub frame: ListedFrame,
    pub channel: Channel,
    pub start: u8,
    /// Start length + 10 x bytes + 3.
    pub bits: usize,
    stretches: &'static [Stretch],
}

/// Whole packed bytes of a stream, as often as they come one behind the other.
struct Stretch {
    times: usize,
    /// The bits as they are sent: blanks between what belongs together, a bar behind each eight, a dot for a spare bit.
    /// What belongs together is the start bits, the frame start bit, the two bits before a byte, the byte, the end.
    /// How the bytes come about; only the tests hold them against it.
    #[cfg_attr(not(test), allow(dead_code))]
    groups: &'static str,
    packed: &'static [u8],
}

const fn once(groups: &'static str, packed: &'static [u8]) -> Stretch {
    Stretch { times: 1, groups, packed }
}

/// 20 01 01 A7 C0 D0 5E EA with start lengths 1, 3 and 15.
const SHORT_ON_A: [ListedStream; 3] = [
    ListedStream {
        frame: SHORT,
        channel: A,
        start: 1,
        bits: 84,
        stretches: &[
            once("0 1 10 0010|0000 10 00|000001 10|00000001|", &[0x62, 0x08, 0x06, 0x01]),
            once("10 101001|11 10 1100|0000 10 11|010000 10|", &[0xA9, 0xEC, 0x0B, 0x42]),
            once("01011110|10 111010|10 01 ....|", &[0x5E, 0xBA, 0x90]),
        ],
    },
    ListedStream {
        frame: SHORT,
        channel: A,
        start: 3,
        bits: 86,
        stretches: &[
            once("000 1 10 00|100000 10|00000001|10 000000|", &[0x18, 0x82, 0x01, 0x80]),
            once("01 10 1010|0111 10 11|000000 10|11010000|", &[0x6A, 0x7B, 0x02, 0xD0]),
            once("10 010111|10 10 1110|1010 01 ..|", &[0x97, 0xAE, 0xA4]),
        ],
    },
    ListedStream {
        frame: SHORT,
        channel: A,
        start: 15,
        bits: 98,
        stretches: &[
            once("00000000|0000000 1|10 001000|00 10 0000|", &[0x00, 0x01, 0x88, 0x20]),
            once("0001 10 00|000001 10|10100111|10 110000|", &[0x18, 0x06, 0xA7, 0xB0]),
            once("00 10 1101|0000 10 01|011110 10|11101010|01 ......|", &[0x2D, 0x09, 0x7A, 0xEA, 0x40]),
        ],
    },
];

/// 20 01 01 A7 C0 3B D0 8F with start lengths 2 and 6; with 6 the last bit alone is in the last byte.
const SHORT_ON_B: [ListedStream; 2] = [
    ListedStream {
        frame: SHORT,
        channel: B,
        start: 2,
        bits: 85,
        stretches: &[
            once("00 1 10 001|00000 10 0|0000001 1|0 0000000|", &[0x31, 0x04, 0x03, 0x00]),
            once("1 10 10100|111 10 110|00000 10 0|0111011 1|", &[0xD4, 0xF6, 0x04, 0x77]),
            once("0 1101000|0 10 10001|111 01 ...|", &[0x68, 0x51, 0xE8]),
        ],
    },
    ListedStream {
        frame: SHORT,
        channel: B,
        start: 6,
        bits: 89,
        stretches: &[
            once("000000 1 1|0 0010000|0 10 00000|001 10 000|", &[0x03, 0x10, 0x40, 0x30]),
            once("00001 10 1|0100111 1|0 1100000|0 10 00111|", &[0x0D, 0x4F, 0x60, 0x47]),
            once("011 10 110|10000 10 1|0001111 0|1 .......|", &[0x76, 0x85, 0x1E, 0x80]),
        ],
    },
];

/// 38 03 05 57 05 01 02 03 04, on A with 85 BF 65 and on B with E3 E5 60; with 5 no bit is spare.
const WITH_PAYLOAD: [ListedStream; 3] = [
    ListedStream {
        frame: STARTUP,
        channel: A,
        start: 4,
        bits: 127,
        stretches: &[
            once("0000 1 10 0|0111000 1|0 0000001|1 10 00000|", &[0x0C, 0x71, 0x01, 0xC0]),
            once("101 10 010|10111 10 0|0000101 1|0 0000000|", &[0xB2, 0xBC, 0x0B, 0x00]),
            once("1 10 00000|010 10 000|00011 10 0|0000100 1|", &[0xC0, 0x50, 0x1C, 0x09]),
            once("0 1000010|1 10 10111|111 10 011|00101 01 .|", &[0x42, 0xD7, 0xF3, 0x2A]),
        ],
    },
    ListedStream {
        frame: STARTUP,
        channel: B,
        start: 5,
        bits: 128,
        stretches: &[
            once("00000 1 10|00111000|10 000000|11 10 0000|", &[0x06, 0x38, 0x80, 0xE0]),
            once("0101 10 01|010111 10|00000101|10 000000|", &[0x59, 0x5E, 0x05, 0x80]),
            once("01 10 0000|0010 10 00|000011 10|00000100|", &[0x60, 0x28, 0x0E, 0x04]),
            once("10 111000|11 10 1110|0101 10 01|100000 01|", &[0xB8, 0xEE, 0x59, 0x81]),
        ],
    },
    ListedStream {
        frame: STARTUP,
        channel: B,
        start: 8,
        bits: 131,
        stretches: &[
            once("00000000|1 10 00111|000 10 000|00011 10 0|", &[0x00, 0xC7, 0x10, 0x1C]),
            once("0000101 1|0 0101011|1 10 00000|101 10 000|", &[0x0B, 0x2B, 0xC0, 0xB0]),
            once("00001 10 0|0000010 1|0 0000001|1 10 00000|", &[0x0C, 0x05, 0x01, 0xC0]),
            once("100 10 111|00011 10 1|1100101 1|0 0110000|", &[0x97, 0x1D, 0xCB, 0x30]),
            once("0 01 .....|", &[0x20]),
        ],
    },
];

/// Fifteen start bits and the header 07 FF FE 4D 7F but for its last two bits.
const LONG_FRONT: Stretch = once(
    "00000000|0000000 1|10 000001|11 10 1111|1111 10 11|111110 10|01001101|10 011111|",
    &[0x00, 0x01, 0x81, 0xEF, 0xFB, 0xFA, 0x4D, 0x9F],
);

/// Behind the header's last two bits the first four of the 254 payload bytes, which are 0, but for two bits.
const LONG_FIRST_FOUR: Stretch =
    once("11 10 0000|0000 10 00|000000 10|00000000|10 000000|", &[0xE0, 0x08, 0x02, 0x00, 0x80]);

/// Each four payload bytes begin and end like those before them: 62 times four are 248, and two are left.
const LONG_MIDDLE: Stretch = Stretch {
    times: 62,
    groups: "00 10 0000|0000 10 00|000000 10|00000000|10 000000|",
    packed: &[0x20, 0x08, 0x02, 0x00, 0x80],
};

/// The longest frame with the longest start, whose trailer is 38 8F C6 on A and 59 BA F1 on B: 2,638 bits.
const LONGEST: [ListedStream; 2] = [
    ListedStream {
        frame: LONG,
        channel: A,
        start: 15,
        bits: 2638,
        stretches: &[
            LONG_FRONT,
            LONG_FIRST_FOUR,
            LONG_MIDDLE,
            once("00 10 0000|0000 10 00|000000 10|00111000|", &[0x20, 0x08, 0x02, 0x38]),
            once("10 100011|11 10 1100|0110 01 ..|", &[0xA3, 0xEC, 0x64]),
        ],
    },
    ListedStream {
        frame: LONG,
        channel: B,
        start: 15,
        bits: 2638,
        stretches: &[
            LONG_FRONT,
            LONG_FIRST_FOUR,
            LONG_MIDDLE,
            once("00 10 0000|0000 10 00|000000 10|01011001|", &[0x20, 0x08, 0x02, 0x59]),
            once("10 101110|10 10 1111|0001 01 ..|", &[0xAE, 0xAF, 0x14]),
        ],
    },
];

pub fn all() -> impl Iterator<Item = ListedStream> {
    SHORT_ON_A.into_iter().chain(SHORT_ON_B).chain(WITH_PAYLOAD).chain(LONGEST)
}

impl ListedStream {
    pub fn frame_bytes(&self) -> Vec<u8> {
        self.frame.bytes(self.channel)
    }

    pub fn packed(&self) -> Vec<u8> {
        self.stretches.iter().flat_map(|stretch| stretch.packed.repeat(stretch.times)).collect()
    }
}

#[cfg(test)]
mod tests {
    use std::collections::BTreeSet;

    use super::*;

    /// The byte that a group of eight stands for.
    fn byte_of(eight: &str) -> u8 {
        let digits: String = eight.chars().filter(|digit| *digit != ' ').collect();
        assert_eq!(digits.len(), 8, "{eight}");
        u8::from_str_radix(&digits.replace('.', "0"), 2).unwrap()
    }

    #[test]
    fn groups_and_bytes_are_the_same() {
        for stretch in all().flat_map(|stream| stream.stretches) {
            let bytes: Vec<u8> = stretch.groups.split_terminator('|').map(byte_of).collect();
            assert_eq!(bytes, stretch.packed, "{}", stretch.groups);
        }
    }

    /// Every number of spare bits, fewer than a byte has, is there.
    #[test]
    fn bits_are_counted_right() {
        let mut spare = BTreeSet::new();
        for stream in all() {
            let groups: String = stream.stretches.iter().map(|stretch| stretch.groups.repeat(stretch.times)).collect();
            assert_eq!(groups.matches(['0', '1']).count(), stream.bits);
            assert_eq!(stream.bits, usize::from(stream.start) + 10 * stream.frame_bytes().len() + 3);
            spare.insert(groups.matches('.').count());
        }
        assert_eq!(Vec::from_iter(spare), [0, 1, 2, 3, 4, 5, 6, 7]);
    }
}
