//! Frame checksum, reading and writing by 01 "Frame layout" and "Refusal numbers", reading as 02 C-18 amends it, writing as
//! C-16 does.

use crate::bits;
use crate::channel::Channel;
use crate::checksum::{FRAME, HEADER};
use crate::checksum_pair::ChecksumPair;
use crate::refusal::{holding, refuse_first, Refusal};
use crate::refused::Refused;

pub const HEADER_BYTES: usize = 5;
pub const TRAILER_BYTES: usize = 3;
pub const HIGHEST_ID: u16 = 2047;
pub const HIGHEST_CYCLE: u8 = 63;
pub const MOST_WORDS: u8 = 127;
pub const LARGEST_PAYLOAD: usize = 2 * MOST_WORDS as usize;
pub const SMALLEST_FRAME: usize = HEADER_BYTES + TRAILER_BYTES;
pub const LARGEST_FRAME: usize = SMALLEST_FRAME + LARGEST_PAYLOAD;

/// How many bits the fields of a header have.
pub const ID_BITS: usize = 11;
const WORDS_BITS: usize = 7;
const CHECKSUM_BITS: usize = 11;
pub const CYCLE_BITS: usize = 6;

const HEADER_START_VALUE: u32 = 0x01A;

/// The null frame bit among a script's flags.
pub const NULL_FRAME_BIT: u8 = 0b00100;

/// The five leading bits of a header, each as it is sent (null frame: 0 = null).
#[derive(Clone, Copy, Debug, PartialEq, Eq)]
pub struct Indicators {
    pub reserved: bool,
    pub preamble: bool,
    pub null_frame: bool,
    pub sync: bool,
    pub startup: bool,
}

impl Indicators {
    pub fn sent(&self) -> [bool; 5] {
        [self.reserved, self.preamble, self.null_frame, self.sync, self.startup]
    }

    fn from_sent(bits: &[bool]) -> Indicators {
        Indicators { reserved: bits[0], preamble: bits[1], null_frame: bits[2], sync: bits[3], startup: bits[4] }
    }

    /// A script's flags count from the lowest bit in sending order; bits above the five are not looked at.
    pub fn from_flags(flags: u8) -> Indicators {
        Indicators::from_sent(&[0, 1, 2, 3, 4].map(|place| flags >> place & 1 == 1))
    }

    pub fn flags(&self) -> u8 {
        self.sent().iter().rev().fold(0, |flags, bit| flags * 2 + u8::from(*bit))
    }

    pub fn startup_without_sync(&self) -> bool {
        self.startup && !self.sync
    }
}

/// What a header says.
#[derive(Clone, Copy, Debug, PartialEq, Eq)]
pub struct Fields {
    pub indicators: Indicators,
    pub id: u16,
    pub words: u8,
    pub header_checksum: u16,
    pub cycle: u8,
}

impl Fields {
    /// The 40 header bits, fields one after the other.
    pub fn bits(&self) -> Vec<bool> {
        let mut row = self.indicators.sent().to_vec();
        row.extend(bits::of_number(u32::from(self.id), ID_BITS));
        row.extend(bits::of_number(u32::from(self.words), WORDS_BITS));
        row.extend(bits::of_number(u32::from(self.header_checksum), CHECKSUM_BITS));
        row.extend(bits::of_number(u32::from(self.cycle), CYCLE_BITS));
        row
    }

    fn from_bits(row: &[bool]) -> Fields {
        let (indicators, row) = row.split_at(5);
        let (id, row) = row.split_at(ID_BITS);
        let (words, row) = row.split_at(WORDS_BITS);
        let (header_checksum, cycle) = row.split_at(CHECKSUM_BITS);
        Fields {
            indicators: Indicators::from_sent(indicators),
            id: bits::number(id) as u16,
            words: bits::number(words) as u8,
            header_checksum: bits::number(header_checksum) as u16,
            cycle: bits::number(cycle) as u8,
        }
    }

    /// The header checksum that belongs to the other fields; only four of them are covered.
    pub fn right_header_checksum(&self) -> u16 {
        let mut covered = vec![self.indicators.sync, self.indicators.startup];
        covered.extend(bits::of_number(u32::from(self.id), ID_BITS));
        covered.extend(bits::of_number(u32::from(self.words), WORDS_BITS));
        HEADER.checksum(HEADER_START_VALUE, &covered) as u16
    }

    /// The same fields with the header checksum put right.
    pub fn with_right_checksum(self) -> Fields {
        Fields { header_checksum: self.right_header_checksum(), ..self }
    }

    /// The bytes of a frame with these words.
    pub fn frame_size(&self) -> usize {
        SMALLEST_FRAME + 2 * usize::from(self.words)
    }
}

/// The frame checksum of header and payload bytes on a channel given by its number.
pub fn frame_checksum(channel: u8, bytes: &[u8]) -> Result<u32, Refusal> {
    let channel = Channel::from_number(channel)?;
    Ok(checksum_on(channel, bytes))
}

pub fn checksum_on(channel: Channel, bytes: &[u8]) -> u32 {
    FRAME.checksum(channel.start_value(), &bits::of_bytes(bytes))
}

/// Reads a frame.
pub fn read(channel: u8, bytes: &[u8]) -> Result<Fields, Refused> {
    let told = |refusal| Refused { refusal, checksums: checksums_beside(refusal, channel, bytes) };
    refuse_first(&read_causes(channel, bytes)).map_err(told)?;
    Ok(header_in(bytes))
}

/// 02 C-18: what a refusal of these bytes tells, which is something with 4 and 8 only.
fn checksums_beside(refusal: Refusal, channel: u8, bytes: &[u8]) -> ChecksumPair {
    match (refusal, Channel::from_number(channel)) {
        (Refusal::HeaderChecksum, _) => header_checksums(bytes),
        (Refusal::FrameChecksum, Ok(channel)) => frame_checksums(channel, bytes),
        _ => ChecksumPair::NONE,
    }
}

/// The header checksum that stands in the first five bytes, and the one that belongs to their other fields.
pub fn header_checksums(bytes: &[u8]) -> ChecksumPair {
    let fields = header_in(bytes);
    ChecksumPair { found: fields.header_checksum.into(), expected: fields.right_header_checksum().into() }
}

/// The trailer, and the frame checksum of all before it.
fn frame_checksums(channel: Channel, bytes: &[u8]) -> ChecksumPair {
    let (body, trailer) = bytes.split_at(bytes.len() - TRAILER_BYTES);
    ChecksumPair { found: bits::number(&bits::of_bytes(trailer)), expected: checksum_on(channel, body) }
}

/// What the first five bytes say, right or wrong.
pub fn header_in(bytes: &[u8]) -> Fields {
    Fields::from_bits(&bits::of_bytes(&bytes[..HEADER_BYTES]))
}

/// Every cause for a refusal of a read, in the order 1 to 8.
pub fn read_causes(channel: u8, bytes: &[u8]) -> Vec<Refusal> {
    let channel = Channel::from_number(channel);
    let mut causes = holding([
        (Refusal::Channel, channel.is_err()),
        (Refusal::TooFewBytes, bytes.len() < SMALLEST_FRAME),
        (Refusal::Size, bytes.len() % 2 == 1 || bytes.len() > LARGEST_FRAME),
    ]);
    // Fewer bytes have no whole header and no trailer.
    if bytes.len() >= SMALLEST_FRAME {
        causes.extend(causes_inside(channel.ok(), bytes));
    }
    causes
}

fn causes_inside(channel: Option<Channel>, bytes: &[u8]) -> Vec<Refusal> {
    let fields = header_in(bytes);
    // On a channel that is none the checksum of either would do.
    let differs = |other| channel.unwrap_or(other) != other || frame_checksums(other, bytes).differs();
    holding([
        (Refusal::HeaderChecksum, header_checksums(bytes).differs()),
        (Refusal::WordsAgainstSize, fields.frame_size() != bytes.len()),
        (Refusal::IdRead, fields.id == 0),
        (Refusal::StartupWithoutSync, fields.indicators.startup_without_sync()),
        (Refusal::FrameChecksum, Channel::BOTH.into_iter().all(differs)),
    ])
}

/// Whether some frame reads as these fields: the one made of them does, or none does. Payload and channel are free.
pub fn could_be_read(fields: &Fields) -> bool {
    let payload = vec![0; 2 * usize::from(fields.words)];
    read(Channel::A.number(), &frame_bytes(Channel::A, fields, &payload)) == Ok(*fields)
}

/// The caller's own bytes between header and trailer, or an empty part after a refusal.
pub fn payload<'a>(answer: &Result<Fields, Refused>, bytes: &'a [u8]) -> &'a [u8] {
    if answer.is_err() {
        return &[];
    }
    &bytes[HEADER_BYTES..bytes.len() - TRAILER_BYTES]
}

/// What a writer is given besides channel and payload; words and checksums follow from these.
#[derive(Clone, Copy, Debug, PartialEq, Eq)]
pub struct ToWrite {
    pub indicators: Indicators,
    pub id: u16,
    pub cycle: u8,
}

/// Writes a frame to the front of the output and gives its size.
pub fn write(channel: u8, given: &ToWrite, payload: &[u8], output: &mut [u8]) -> Result<usize, Refusal> {
    refuse_first(&write_causes(channel, given, payload, output.len()))?;
    let frame = frame_bytes(Channel::from_number(channel)?, &header_of(given, payload), payload);
    output[..frame.len()].copy_from_slice(&frame);
    Ok(frame.len())
}

/// Every cause for a refusal of a write, in the order 1, 9, 10, 11, 7, 12, 26, 13.
pub fn write_causes(channel: u8, given: &ToWrite, payload: &[u8], room: usize) -> Vec<Refusal> {
    holding([
        (Refusal::Channel, Channel::from_number(channel).is_err()),
        (Refusal::IdGiven, !(1..=HIGHEST_ID).contains(&given.id)),
        (Refusal::PayloadToWrite, payload.len() % 2 == 1 || payload.len() > LARGEST_PAYLOAD),
        (Refusal::Cycle, given.cycle > HIGHEST_CYCLE),
        (Refusal::StartupWithoutSync, given.indicators.startup_without_sync()),
        (Refusal::ReservedToWrite, given.indicators.reserved),
        // A null frame has its null frame bit 0.
        (Refusal::NullFramePayload, !given.indicators.null_frame && payload.iter().any(|byte| *byte != 0)),
        (Refusal::Output, room < SMALLEST_FRAME + payload.len()),
    ])
}

fn header_of(given: &ToWrite, payload: &[u8]) -> Fields {
    Fields {
        indicators: given.indicators,
        id: given.id,
        words: (payload.len() / 2) as u8,
        header_checksum: 0,
        cycle: given.cycle,
    }
    .with_right_checksum()
}

/// Header as the fields say, payload, and the trailer that belongs to both on this channel.
pub fn frame_bytes(channel: Channel, fields: &Fields, payload: &[u8]) -> Vec<u8> {
    let mut frame = bits::to_bytes(&fields.bits());
    frame.extend(payload);
    let trailer = bits::of_number(checksum_on(channel, &frame), 8 * TRAILER_BYTES);
    frame.extend(bits::to_bytes(&trailer));
    frame
}

#[cfg(test)]
mod tests {
    use super::*;
    use crate::draft::Draft;
    use crate::listed_frames::{self, LONG, NOT_ZEROS, STARTUP, ZEROS, ZEROS_WITH_PREAMBLE};

    /// The four covered fields stand side by side in the header: its 20 bits from the fourth on.
    #[test]
    fn header_checksum_covers_a_stretch_of_the_header() {
        for flags in 0..32 {
            let indicators = Indicators::from_flags(flags);
            let fields = Fields { indicators, id: 0x52B, words: 0x4D, header_checksum: 0, cycle: 21 };
            let stretch = &bits::of_bytes(&bits::to_bytes(&fields.bits()))[3..23];
            assert_eq!(u32::from(fields.right_header_checksum()), HEADER.checksum(0x01A, stretch));
        }
    }

    #[test]
    fn flags_go_there_and_back() {
        for flags in 0..=255 {
            assert_eq!(Indicators::from_flags(flags).flags(), flags & 0b11111);
        }
        assert!(Indicators::from_flags(1).reserved);
        assert!(Indicators::from_flags(16).startup);
    }

    /// Flags, ID and cycle.
    type Given = (u8, u16, u8);

    /// The number that a write into so much room gives, and what is in the room afterwards.
    fn written(channel: u8, (flags, id, cycle): Given, payload: &[u8], room: usize) -> (u8, Vec<u8>) {
        let given = ToWrite { indicators: Indicators::from_flags(flags), id, cycle };
        let mut output = vec![0x3C; room];
        let answer = write(channel, &given, payload, &mut output);
        assert!(answer.is_err() || answer == Ok(8 + payload.len()));
        (answer.map_or_else(Refusal::number, |_| 0), output)
    }

    fn number(flags: u8, payload: &[u8]) -> u8 {
        written(0, (flags, 3, 5), payload, 8 + payload.len()).0
    }

    /// 02 C-16: one byte other than 0 is enough, at each place and with each bit.
    #[test]
    fn a_byte_other_than_0_is_refused_in_null_frames_alone() {
        for size in [2, 4, 254] {
            for place in 0..size {
                for byte in [1, 2, 4, 8, 16, 32, 64, 128, 255] {
                    let mut payload = vec![0; size];
                    payload[place] = byte;
                    assert_eq!(number(0b00000, &payload), 26, "{byte} at {place} of {size}");
                }
                let mut payload = vec![0; size];
                payload[place] = 128;
                assert_eq!(number(0b00100, &payload), 0, "{place} of {size}");
            }
        }
        for payload in [&[1, 1][..], &[128, 128], &[1, 255], &[85, 0, 0, 85], &[255; 254]] {
            assert_eq!((number(0b00000, payload), number(0b00100, payload)), (26, 0));
        }
    }

    /// Neither preamble nor sync nor startup bit are looked at.
    #[test]
    fn null_frames_by_their_other_bits() {
        for flags in [0b00000, 0b00010, 0b01000, 0b01010, 0b11000, 0b11010] {
            for size in [0, 2, 4, 254] {
                assert_eq!(number(flags, &vec![0; size]), 0, "{flags} and {size}");
            }
            assert_eq!((number(flags, &[0, 1]), number(flags, &[128, 0])), (26, 26), "{flags}");
            assert_eq!((number(flags | 0b00001, &[0, 1]), number(flags | 0b00001, &[0, 0])), (12, 12), "{flags}");
            assert_eq!((number(flags | 0b00100, &[0, 1]), number(flags | 0b00100, &[0, 0])), (0, 0), "{flags}");
        }
    }

    /// All causes at once, and then one after the other put right: 1, 9, 10, 11, 7, 12, 26, 13.
    #[test]
    fn writes_are_refused_in_their_order() {
        let steps: [(u8, Given, &[u8], usize); 9] = [
            (2, (0b10001, 0, 64), &[0, 0, 9], 7),
            (1, (0b10001, 0, 64), &[0, 0, 9], 7),
            (1, (0b10001, 2047, 64), &[0, 0, 9], 7),
            (1, (0b10001, 2047, 64), &[0, 9], 7),
            (1, (0b10001, 2047, 63), &[0, 9], 7),
            (1, (0b11001, 2047, 63), &[0, 9], 7),
            (1, (0b11000, 2047, 63), &[0, 9], 7),
            (1, (0b11000, 2047, 63), &[0, 0], 7),
            (1, (0b11000, 2047, 63), &[0, 0], 10),
        ];
        let numbers = steps.map(|(channel, given, payload, room)| written(channel, given, payload, room).0);
        assert_eq!(numbers, [1, 9, 10, 11, 7, 12, 26, 13, 0]);
    }

    /// 26 beside one other cause: all but 13 are told first.
    #[test]
    fn causes_beside_a_null_frame_that_is_not_empty() {
        const FAIR: Given = (0b00000, 1, 0);
        let cases: [(u8, Given, &[u8], usize, u8); 12] = [
            (0, FAIR, &[7, 0], 10, 26),
            (255, FAIR, &[7, 0], 10, 1),
            (0, (0b00000, 2048, 0), &[7, 0], 10, 9),
            (0, FAIR, &[7], 9, 10),
            (0, FAIR, &[7; 255], 263, 10),
            (0, FAIR, &[7; 256], 264, 10),
            (0, (0b00000, 1, 64), &[7, 0], 10, 11),
            (0, (0b10000, 1, 0), &[7, 0], 10, 7),
            (0, (0b00001, 1, 0), &[7, 0], 10, 12),
            (0, FAIR, &[7, 0], 9, 26),
            (0, FAIR, &[7, 0], 0, 26),
            (0, FAIR, &[0, 0], 9, 13),
        ];
        for (channel, given, payload, room, number) in cases {
            // A refusal touches nothing.
            assert_eq!(written(channel, given, payload, room), (number, vec![0x3C; room]));
        }
    }

    /// 02 C-18: what each refusal of the shortest frame tells.
    #[test]
    fn checksums_beside_every_number() {
        for channel in Channel::BOTH {
            for (number, (given, checksums)) in (1..).zip(listed_frames::refused(channel)) {
                let refused = read(given.channel, &given.bytes).unwrap_err();
                assert_eq!((refused.number(), refused.checksums), (number, checksums));
            }
        }
    }

    /// Both checksums wrong, beside everything that is refused before one of them.
    #[test]
    fn checksums_are_told_beside_their_own_number() {
        let plain = Draft::plain(Channel::A, 0b00100, 1, 0, 0);
        let wrong = Draft { header_checksum_change: 0x69F, frame_checksum_change: 1, ..plain };
        let told = |channel, bytes: &[u8]| {
            let refused = read(channel, bytes).unwrap_err();
            (refused.number(), refused.checksums.found, refused.checksums.expected)
        };
        assert_eq!(told(0, &wrong.bytes()), (4, 0, 0x69F));
        assert_eq!(told(2, &wrong.bytes()), (1, 0, 0));
        assert_eq!(told(0, &wrong.bytes()[..7]), (2, 0, 0));
        assert_eq!(told(0, &Draft { payload: vec![0], ..wrong.clone() }.bytes()), (3, 0, 0));
        assert_eq!(told(0, &Draft { id: 0, words: 9, ..wrong.clone() }.bytes()).0, 4);
        let right_header = Draft { header_checksum_change: 0, ..wrong };
        assert_eq!(told(0, &right_header.bytes()), (8, 0xD05EEB, 0xD05EEA));
        assert_eq!(told(1, &right_header.bytes()), (8, 0xD05EEB, 0x3BD08F));
        assert_eq!(told(0, &Draft { words: 1, ..right_header.clone() }.bytes()), (5, 0, 0));
        assert_eq!(told(0, &Draft { id: 0, ..right_header }.bytes()), (6, 0, 0));
    }

    /// Frames that are known whole are read, and what was read is written: the same bytes, or nothing.
    #[test]
    fn known_frames_are_read_and_then_written() {
        for channel in Channel::BOTH {
            for frame in [&STARTUP, &LONG, &ZEROS, &ZEROS_WITH_PREAMBLE] {
                assert_eq!(rewritten(channel, &frame.bytes(channel)), (0, frame.bytes(channel)));
            }
            assert_eq!(rewritten(channel, &NOT_ZEROS.bytes(channel)), (26, vec![0x3C; 12]));
        }
        // The same with the reserved bit.
        let reserved: [&[u8]; 2] = [
            &[0x98, 0x03, 0x05, 0x57, 0x05, 0x01, 0x02, 0x03, 0x04, 0x23, 0xF3, 0x9B],
            &[0x98, 0x03, 0x05, 0x57, 0x05, 0x01, 0x02, 0x03, 0x04, 0x45, 0xA9, 0x9E],
        ];
        for (channel, bytes) in Channel::BOTH.into_iter().zip(reserved) {
            assert_eq!(rewritten(channel, bytes), (12, vec![0x3C; 12]));
        }
    }

    fn rewritten(channel: Channel, bytes: &[u8]) -> (u8, Vec<u8>) {
        let answer = read(channel.number(), bytes);
        let payload = payload(&answer, bytes);
        assert_eq!(payload, &bytes[5..bytes.len() - 3]);
        let Fields { indicators, id, cycle, .. } = answer.unwrap();
        written(channel.number(), (indicators.flags(), id, cycle), payload, bytes.len())
    }
}
