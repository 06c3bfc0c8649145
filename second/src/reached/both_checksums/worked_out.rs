//! Both checksums from the bytes alone, by a shift register.

use crate::channel::Channel;
use crate::checksum_pair::ChecksumPair;
use crate::frame::{HEADER_BYTES, TRAILER_BYTES};

/// One more bit in a register of so many bits.
fn shifted(register: u32, bit: u32, width: u32, polynomial: u32) -> u32 {
    let next = register << 1 & ((1 << width) - 1);
    if register >> (width - 1) == bit {
        return next;
    }
    next ^ polynomial
}

/// The 40 bits of a header as one number: behind sync, startup, ID and words stand the checksum and the cycle.
pub(super) fn of_header(header: &[u8]) -> ChecksumPair {
    let header = header.iter().fold(0, |number: u64, byte| number << 8 | u64::from(*byte));
    let covered = (header >> 17) as u32 & 0xF_FFFF;
    let expected = (0..20).rev().fold(0x01A, |register, place| shifted(register, covered >> place & 1, 11, 0x385));
    ChecksumPair { found: (header >> 6) as u32 & 0x7FF, expected }
}

pub(super) fn of_trailer(channel: u8, bytes: &[u8]) -> ChecksumPair {
    let (body, trailer) = bytes.split_at(bytes.len() - TRAILER_BYTES);
    let start = if channel == Channel::A.number() { 0xFEDCBA } else { 0xABCDEF };
    let with_byte = |register, byte: &u8| {
        (0..8).rev().fold(register, |register, place| shifted(register, u32::from(byte >> place & 1), 24, 0x5D6DCB))
    };
    let found = trailer.iter().fold(0, |number, byte| number << 8 | u32::from(*byte));
    ChecksumPair { found, expected: body.iter().fold(start, with_byte) }
}

/// What this number must tell of these bytes.
pub(super) fn demanded(number: u8, channel: u8, bytes: &[u8]) -> ChecksumPair {
    match number {
        4 => of_header(&bytes[..HEADER_BYTES]),
        8 => of_trailer(channel, bytes),
        _ => ChecksumPair::NONE,
    }
}

#[cfg(test)]
mod tests {
    use super::*;
    use crate::listed_frames::{LONG, SHORT, STARTUP};

    #[test]
    fn checksums_by_hand() {
        let header = |bytes: [u8; 5]| of_header(&bytes);
        assert_eq!(header(SHORT.header), ChecksumPair { found: 0x69F, expected: 0x69F });
        assert_eq!(header([0x30, 0x01, 0x01, 0xA7, 0xC0]), ChecksumPair { found: 0x69F, expected: 0x35D });
        for channel in Channel::BOTH {
            for frame in [&SHORT, &STARTUP, &LONG] {
                assert!(!of_trailer(channel.number(), &frame.bytes(channel)).differs());
                assert_eq!(of_trailer(channel.other().number(), &frame.bytes(channel)), frame.strange(channel));
            }
        }
    }
}
