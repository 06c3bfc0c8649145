//! The bits of a frame as they go on the wire (02 C-11): written out as a row, and only then packed.

use std::ops::RangeInclusive;

use crate::bits;
use crate::frame;
use crate::refusal::{holding, refuse_first, Refusal};
use crate::refused::Refused;

/// How many low bits may stand at the front.
pub const START_LENGTHS: RangeInclusive<u8> = 1..=15;

const LOW: bool = false;
const HIGH: bool = true;

/// Lays the packed bits of a frame over the front of the output and gives the number of bits.
pub fn encode(channel: u8, start: u8, frame: &[u8], output: &mut [u8]) -> Result<usize, Refused> {
    // 02 C-18: where reading refuses the frame, all that it tells is told.
    frame::read(channel, frame)?;
    refuse_first(&own_causes(start, frame, output.len()))?;
    let stream = stream(start, frame);
    let packed = packed(&stream);
    output[..packed.len()].copy_from_slice(&packed);
    Ok(stream.len())
}

/// Every cause for a refusal of an encoding: those of reading the frame, as the reader gives them, then its own.
pub fn encode_causes(channel: u8, start: u8, frame: &[u8], room: usize) -> Vec<Refusal> {
    [frame::read_causes(channel, frame), own_causes(start, frame, room)].concat()
}

/// In the order 24, 25.
fn own_causes(start: u8, frame: &[u8], room: usize) -> Vec<Refusal> {
    holding([
        (Refusal::StartLength, !START_LENGTHS.contains(&start)),
        (Refusal::PackedOutput, room < packed(&stream(start, frame)).len()),
    ])
}

/// Start bits low, the frame start bit high, a high and a low bit before each byte, at the end a low and a high bit.
pub fn stream(start: u8, frame: &[u8]) -> Vec<bool> {
    let mut row = vec![LOW; start.into()];
    row.push(HIGH);
    for byte in frame {
        row.extend([HIGH, LOW]);
        row.extend(bits::of_bytes(&[*byte]));
    }
    row.extend([LOW, HIGH]);
    row
}

/// Eight to a byte, the first bit highest. The spare bits of the last byte are part of it, and are 0.
fn packed(stream: &[bool]) -> Vec<u8> {
    let mut row = stream.to_vec();
    row.resize(row.len().next_multiple_of(8), LOW);
    bits::to_bytes(&row)
}

/// 02's number of bits, told from the sizes alone.
pub fn bits_of(start: u8, frame_size: usize) -> usize {
    usize::from(start) + 10 * frame_size + 3
}

/// The bytes that these bits take when packed.
pub fn packed_size(start: u8, frame_size: usize) -> usize {
    bits_of(start, frame_size).div_ceil(8)
}

#[cfg(test)]
mod tests {
    use super::*;
    use crate::channel::Channel;
    use crate::checksum_pair::ChecksumPair;
    use crate::listed_frames::{LONG, SHORT};

    /// 002 B.4.12, table B-21.
    #[test]
    fn lengths_of_002() {
        let mut output = [0; 330];
        assert_eq!(encode(0, 1, &SHORT.bytes(Channel::A), &mut output), Ok(84));
        for (start, bits) in [(5, 2628), (8, 2631), (15, 2638)] {
            assert_eq!(encode(1, start, &LONG.bytes(Channel::B), &mut output), Ok(bits));
        }
        assert_eq!(packed_size(15, LONG.bytes(Channel::B).len()), output.len());
    }

    /// Start lengths and sizes that are refused among them.
    #[test]
    fn rows_are_as_long_as_02_says() {
        for start in 0..=255 {
            for size in [0, 1, 7, 8, 9, 262, 600] {
                let row = stream(start, &vec![0x5A; size]);
                assert_eq!(row.len(), bits_of(start, size));
                assert_eq!(packed(&row).len(), packed_size(start, size));
            }
        }
    }

    #[test]
    fn spare_bits_become_0_and_later_bytes_stay() {
        for before in [0x00, 0xFF] {
            let mut output = [before; 13];
            assert_eq!(encode(0, 1, &SHORT.bytes(Channel::A), &mut output), Ok(84));
            assert_eq!(output[10..], [0x90, before, before]);
        }
    }

    #[test]
    fn a_refusal_touches_nothing() {
        let frame = SHORT.bytes(Channel::A);
        let wrong_header = [&[frame[0] ^ 0x10], &frame[1..]].concat();
        let cases = [
            (1, 1, &frame[..], 11, Refusal::FrameChecksum, [0xD05EEA, 0x3BD08F]),
            (1, 16, &frame[..], 0, Refusal::FrameChecksum, [0xD05EEA, 0x3BD08F]),
            (0, 1, &wrong_header[..], 11, Refusal::HeaderChecksum, [0x69F, 0x35D]),
            (2, 0, &frame[..7], 0, Refusal::Channel, [0, 0]),
            (0, 0, &frame[..], 0, Refusal::StartLength, [0, 0]),
            (0, 16, &frame[..], 13, Refusal::StartLength, [0, 0]),
            (0, 1, &frame[..], 10, Refusal::PackedOutput, [0, 0]),
        ];
        for (channel, start, frame, room, refusal, [found, expected]) in cases {
            let mut output = vec![0x3C; room];
            let refused = Refused { refusal, checksums: ChecksumPair { found, expected } };
            assert_eq!(encode(channel, start, frame, &mut output), Err(refused));
            assert!(output.iter().all(|byte| *byte == 0x3C));
        }
    }
}
