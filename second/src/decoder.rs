//! From strobed bits to frames (02 C-13 and C-18; 002, sections 3.2.6, 3.2.7 and 3.3.6), one bit at a time.

use crate::channel::Channel;
use crate::frame::{self, Fields, HEADER_BYTES, LARGEST_FRAME, SMALLEST_FRAME};
use crate::refusal::Refusal;
use crate::refused::Refused;

/// 002, section 3.2.6: two low bits more than the longest start has.
pub const MOST_LOW_BITS: u8 = 17;

/// High bits behind a start: the frame start bit, the first of the first byte's start, and one to spare.
pub const MOST_HIGH_BITS: u8 = 3;

const BITS_OF_BYTE: u8 = 8;

/// What the reader waits for, and how far it has come.
#[derive(Clone, Copy, Debug, Default, PartialEq, Eq)]
pub enum Phase {
    #[default]
    Waiting,
    /// Low bits so far.
    Start(u8),
    /// High bits so far.
    FrameStart(u8),
    ByteStartHigh,
    ByteStartLow,
    /// Bits so far, and the number that they make.
    Byte(u8, u8),
    EndLow,
    EndHigh,
}

/// What a bit, or a whole piece of samples, tells.
#[derive(Clone, Copy, Debug, PartialEq, Eq)]
pub enum Told {
    Nothing,
    /// With its size and the samples since its reference point.
    Frame(Fields, usize, u32),
    Error(Refused),
}

/// Where in a frame the reader is.
#[derive(Clone, Copy, Debug, Default, PartialEq, Eq)]
pub struct Decoder {
    pub phase: Phase,
    /// The whole bytes that have come.
    pub count: u16,
    /// The samples since the reference point.
    pub since: u32,
}

impl Phase {
    /// Whether a reference point lies behind, and bytes are being gathered.
    pub fn has_bytes(self) -> bool {
        matches!(self, Phase::ByteStartHigh | Phase::ByteStartLow | Phase::Byte(..) | Phase::EndLow)
    }
}

impl Decoder {
    fn waiting() -> Decoder {
        Decoder::default()
    }

    /// A phase in which no byte has come.
    fn without_bytes(phase: Phase) -> Decoder {
        Decoder { phase, ..Decoder::default() }
    }

    /// One more sample, whatever comes of it.
    pub fn count_sample(&mut self) {
        if self.phase.has_bytes() {
            self.since += 1;
        }
    }

    /// The next bit of the wire. Whether the channel is idle there is looked at while waiting only.
    pub fn take(&mut self, high: bool, idle: bool, channel: Channel, memory: &mut [u8]) -> Told {
        match (self.phase, high) {
            (Phase::Waiting, false) if idle => self.go_on(Decoder::without_bytes(Phase::Start(1))),
            (Phase::Waiting, _) => Told::Nothing,
            (Phase::Start(_), true) => self.go_on(Decoder::without_bytes(Phase::FrameStart(1))),
            (Phase::Start(MOST_LOW_BITS), false) => self.fail(Refusal::LongStart.into()),
            (Phase::Start(low), false) => self.go_on(Decoder::without_bytes(Phase::Start(low + 1))),
            (Phase::FrameStart(MOST_HIGH_BITS), true) => self.fail(Refusal::LongFrameStart.into()),
            (Phase::FrameStart(high), true) => self.go_on(Decoder::without_bytes(Phase::FrameStart(high + 1))),
            // The reference point, from which samples are counted.
            (Phase::FrameStart(_), false) => self.go_on(Decoder::without_bytes(Phase::Byte(0, 0))),
            (Phase::ByteStartHigh, true) => self.turn_to(Phase::ByteStartLow),
            (Phase::ByteStartHigh, false) => self.fail(Refusal::ByteStartLow.into()),
            (Phase::ByteStartLow, false) => self.turn_to(Phase::Byte(0, 0)),
            (Phase::ByteStartLow, true) => self.fail(Refusal::ByteStartHigh.into()),
            (Phase::Byte(bits, value), _) => self.take_bit(bits + 1, value << 1 | u8::from(high), memory),
            (Phase::EndLow, false) => self.judge(channel, memory),
            (Phase::EndLow, true) => self.fail(Refusal::EndHigh.into()),
            (Phase::EndHigh, true) => self.go_on(Decoder::waiting()),
            (Phase::EndHigh, false) => self.fail(Refusal::EndLow.into()),
        }
    }

    fn go_on(&mut self, next: Decoder) -> Told {
        *self = next;
        Told::Nothing
    }

    /// The same frame in another phase.
    fn turn_to(&mut self, phase: Phase) -> Told {
        self.go_on(Decoder { phase, ..*self })
    }

    /// Behind an error the reader waits.
    fn fail(&mut self, error: Refused) -> Told {
        *self = Decoder::waiting();
        Told::Error(error)
    }

    fn take_bit(&mut self, bits: u8, value: u8, memory: &mut [u8]) -> Told {
        if bits < BITS_OF_BYTE {
            return self.turn_to(Phase::Byte(bits, value));
        }
        memory[usize::from(self.count)] = value;
        self.count += 1;
        self.follow_byte(&memory[..self.count.into()])
    }

    /// What comes behind a whole byte, these being all so far.
    fn follow_byte(&mut self, bytes: &[u8]) -> Told {
        if bytes.len() == HEADER_BYTES {
            let checksums = frame::header_checksums(bytes);
            if checksums.differs() {
                return self.fail(Refused { refusal: Refusal::HeaderChecksum, checksums });
            }
        }
        let phase = if is_whole(bytes) { Phase::EndLow } else { Phase::ByteStartHigh };
        self.turn_to(phase)
    }

    /// At the low bit of the end.
    fn judge(&mut self, channel: Channel, memory: &[u8]) -> Told {
        let bytes = &memory[..self.count.into()];
        match frame::read(channel.number(), bytes) {
            Err(refused) => self.fail(refused),
            Ok(fields) => {
                let since = self.since;
                *self = Decoder::without_bytes(Phase::EndHigh);
                Told::Frame(fields, bytes.len(), since)
            }
        }
    }

    /// Clauses 3 to 5 of a reader's soundness, and 6 as far as no byte is being gathered.
    pub fn is_sound(&self) -> bool {
        let (bytes, largest) = (usize::from(self.count), LARGEST_FRAME);
        match self.phase {
            Phase::Waiting | Phase::EndHigh => self.is_empty(),
            Phase::Start(low) => (1..=MOST_LOW_BITS).contains(&low) && self.is_empty(),
            Phase::FrameStart(high) => (1..=MOST_HIGH_BITS).contains(&high) && self.is_empty(),
            Phase::Byte(bits, value) => bits < BITS_OF_BYTE && value >> bits == 0 && bytes < largest,
            Phase::ByteStartHigh | Phase::ByteStartLow => (1..largest).contains(&bytes),
            Phase::EndLow => (SMALLEST_FRAME..=largest).contains(&bytes),
        }
    }

    fn is_empty(&self) -> bool {
        self.count == 0 && self.since == 0
    }

    /// The bits of the wire since the first byte's start began.
    pub fn bits(&self) -> u32 {
        let within = match self.phase {
            Phase::Byte(bits, _) => 2 + u32::from(bits),
            Phase::ByteStartLow => 1,
            _ => 0,
        };
        10 * u32::from(self.count) + within
    }
}

/// Whether there are at least as many bytes as the header says; before a whole header nothing is said yet.
fn is_whole(bytes: &[u8]) -> bool {
    bytes.len() >= HEADER_BYTES && bytes.len() >= frame::header_in(bytes).frame_size()
}

#[cfg(test)]
mod tests {
    use super::*;
    use crate::checksum_pair::ChecksumPair;
    use crate::listed_frames::SHORT;

    /// Plays bits, written as digits, on channel A.
    fn play(decoder: &mut Decoder, bits: &str, memory: &mut [u8]) -> Vec<Told> {
        let digits = bits.chars().filter(|digit| *digit != ' ');
        let told = digits.map(|digit| decoder.take(digit == '1', true, Channel::A, memory));
        told.filter(|told| *told != Told::Nothing).collect()
    }

    const FRONT: &str = "000 1 10";
    const HEADER: &str = "00100000 10 00000001 10 00000001 10 10100111 10 11000000";
    const TRAILER: &str = "10 11010000 10 01011110 10 11101010";

    fn told_by(bits: &str) -> Vec<Told> {
        let (mut decoder, mut memory) = (Decoder::waiting(), [0; LARGEST_FRAME]);
        let told = play(&mut decoder, bits, &mut memory);
        assert!(decoder.is_sound());
        told
    }

    #[test]
    fn a_frame_by_hand() {
        let mut memory = [0; LARGEST_FRAME];
        let mut decoder = Decoder::waiting();
        assert_eq!(play(&mut decoder, &format!("{FRONT} {HEADER} {TRAILER}"), &mut memory), []);
        assert_eq!(decoder, Decoder { phase: Phase::EndLow, count: 8, since: 0 });
        let bytes = SHORT.bytes(Channel::A);
        assert_eq!(play(&mut decoder, "0", &mut memory), [Told::Frame(frame::read(0, &bytes).unwrap(), 8, 0)]);
        assert_eq!(memory[..8], bytes);
        assert_eq!(decoder, Decoder::without_bytes(Phase::EndHigh));
        assert_eq!(play(&mut decoder, "1", &mut memory), []);
        assert_eq!(decoder, Decoder::waiting());
    }

    fn with_checksums(refusal: Refusal, found: u32, expected: u32) -> Refused {
        Refused { refusal, checksums: ChecksumPair { found, expected } }
    }

    /// 02 C-18: of a sync frame of ID 1 the header checksum would be 0x35D.
    #[test]
    fn every_error_by_hand() {
        let low = |bits| "0".repeat(bits);
        let header = with_checksums(Refusal::HeaderChecksum, 0x69F, 0x35D);
        let trailer = with_checksums(Refusal::FrameChecksum, 0xD05EEB, 0xD05EEA);
        let cases = [
            (format!("{} 1", low(17)), None),
            (low(18), Some(Refusal::LongStart.into())),
            ("0 111 0".to_string(), None),
            ("0 1111".to_string(), Some(Refusal::LongFrameStart.into())),
            (format!("{FRONT} 00100000 0"), Some(Refusal::ByteStartLow.into())),
            (format!("{FRONT} 00100000 11"), Some(Refusal::ByteStartHigh.into())),
            (format!("{FRONT} {}1", &HEADER[..HEADER.len() - 1]), None),
            (format!("{FRONT} 00110000{}", &HEADER[8..]), Some(header)),
            (format!("{FRONT} {HEADER} {TRAILER} 1"), Some(Refusal::EndHigh.into())),
            (format!("{FRONT} {HEADER} {}1 0", &TRAILER[..TRAILER.len() - 1]), Some(trailer)),
        ];
        for (bits, error) in cases {
            assert_eq!(told_by(&bits), Vec::from_iter(error.map(Told::Error)), "{bits}");
        }
        let both = told_by(&format!("{FRONT} {HEADER} {TRAILER} 0 0"));
        assert!(matches!(both[0], Told::Frame(..)));
        assert_eq!(both[1..], [Told::Error(Refusal::EndLow.into())]);
    }

    #[test]
    fn a_start_needs_an_idle_channel() {
        let mut decoder = Decoder::waiting();
        assert_eq!(decoder.take(false, false, Channel::B, &mut []), Told::Nothing);
        assert_eq!(decoder, Decoder::waiting());
        assert_eq!(decoder.take(false, true, Channel::B, &mut []), Told::Nothing);
        assert_eq!(decoder.phase, Phase::Start(1));
    }
}
