//! The calls that a piece of samples makes, and the line written for each.

use crate::answer::{field_numbers, hex};
use crate::checksum_pair::ChecksumPair;
use crate::decoder::Told;
use crate::reader::{Heard, Reader};
use crate::refusal::Refusal;

/// One call of listening.
#[derive(Clone, Debug, PartialEq, Eq)]
pub struct Call {
    pub answer: Result<Heard, Refusal>,
    /// Those of the frame that it gave, as they lie in the memory right behind it.
    pub bytes: Vec<u8>,
}

impl Call {
    fn of(reader: &mut Reader, samples: &[u8], memory: &mut [u8]) -> Call {
        let answer = reader.listen(samples, memory);
        let size = match answer {
            Ok(Heard { told: Told::Frame(_, size, _), .. }) => size,
            _ => 0,
        };
        Call { answer, bytes: memory[..size].to_vec() }
    }

    /// 0 with a refusal.
    pub fn taken(&self) -> usize {
        self.answer.map_or(0, |heard| heard.taken)
    }

    /// Whether it told a frame or an error.
    pub fn tells(&self) -> bool {
        self.answer.is_ok_and(|heard| heard.told != Told::Nothing)
    }

    /// That of the refusal or of the error, and otherwise 0.
    pub fn number(&self) -> u8 {
        match self.answer {
            Ok(Heard { told: Told::Error(error), .. }) => error.number(),
            Ok(_) => 0,
            Err(refusal) => refusal.number(),
        }
    }

    /// 02 C-18: those that an error tells.
    pub fn checksums(&self) -> ChecksumPair {
        match self.answer {
            Ok(Heard { told: Told::Error(error), .. }) => error.checksums,
            _ => ChecksumPair::NONE,
        }
    }

    pub fn line(&self) -> String {
        let (number, taken, checksums) = (self.number(), self.taken(), self.checksums());
        match self.answer {
            Ok(Heard { told: Told::Frame(fields, _, since), .. }) => {
                format!("heard 0 {taken} {since} {} {} {checksums}", field_numbers(&fields), hex(&self.bytes))
            }
            _ => format!("heard {number} {taken} {checksums}"),
        }
    }
}

/// Listens to the piece and, while something is told, to the rest of it; an empty piece is listened to once.
pub fn calls(reader: &mut Reader, samples: &[u8], memory: &mut [u8]) -> Vec<Call> {
    let mut rest = samples;
    let mut calls = Vec::new();
    loop {
        let call = Call::of(reader, rest, memory);
        rest = &rest[call.taken()..];
        let goes_on = call.tells() && !rest.is_empty();
        calls.push(call);
        if !goes_on {
            return calls;
        }
    }
}

#[cfg(test)]
mod tests {
    use super::*;
    use crate::bits;
    use crate::channel::Channel;
    use crate::frame::LARGEST_FRAME;
    use crate::listed_frames::SHORT;
    use crate::reader;
    use crate::samples;

    const SHORT_LINE: &str = "632 0 0 1 0 0 1 0 1695 0 200101a7c0d05eea 0 0";

    fn lines(reader: &mut Reader, samples: &[u8]) -> Vec<String> {
        calls(reader, samples, &mut [0; LARGEST_FRAME]).iter().map(Call::line).collect()
    }

    /// The stream of the first frame with 11 idle bits and start length 3: 776 samples, the frame at the one of index 766
    /// and the last strobe at 774.
    #[test]
    fn known_places_of_the_first_frame() {
        let stream = samples::short_stream(Channel::A);
        assert_eq!(stream.len(), 776);
        let mut reader = reader::open(0).unwrap();
        assert_eq!(lines(&mut reader, &stream), [format!("heard 0 767 {SHORT_LINE}"), "heard 0 9 0 0".to_string()]);
        let mut reader = reader::open(0).unwrap();
        let mut memory = [0; LARGEST_FRAME];
        let mut strobes = Vec::new();
        let mut given = None;
        for (index, sample) in stream.iter().enumerate() {
            let before = reader.clock.counter;
            let told = reader.take(*sample, &mut memory);
            given = if told == Told::Nothing { given } else { Some(index) };
            // A strobe is the only way from 5 to 6.
            strobes.extend((before == 5 && reader.clock.counter == 6).then_some(index));
        }
        assert_eq!((given, strobes.last()), (Some(766), Some(&774)));
        assert_eq!(memory[..8], SHORT.bytes(Channel::A));
    }

    #[test]
    fn an_empty_piece_is_listened_to_once() {
        assert_eq!(lines(&mut reader::open(1).unwrap(), &[]), ["heard 0 0 0 0"]);
        assert_eq!(lines(&mut Reader::default(), &[]), ["heard 23 0 0 0"]);
        assert_eq!(lines(&mut Reader::default(), &[1, 0]), ["heard 23 0 0 0"]);
    }

    /// The sample that tells something may be the last: then nothing is left to listen to.
    #[test]
    fn nothing_left_is_not_listened_to() {
        let stream = samples::short_stream(Channel::A);
        let heard = lines(&mut reader::open(0).unwrap(), &stream[..767]);
        assert_eq!(heard, [format!("heard 0 767 {SHORT_LINE}")]);
        assert_eq!(lines(&mut reader::open(0).unwrap(), &stream[..766]), ["heard 0 766 0 0"]);
    }

    /// 02 C-18: the sync bit of the first frame turned over, which is found behind five bytes; the last bit of its trailer,
    /// which is found at the end; and the frame on the other channel.
    #[test]
    fn errors_4_and_8_tell_checksums() {
        let with_bit = |place: usize| {
            let mut frame = SHORT.bytes(Channel::A);
            bits::flip(&mut frame, place);
            samples::behind_idle(3, &frame)
        };
        // A bit is strobed in the seventh of its samples.
        let (header, end) = (8 * (11 + 3 + 1 + 50) - 1, 767);
        let cases = [
            (0, with_bit(3), format!("heard 4 {header} 1695 861")),
            (0, with_bit(63), format!("heard 8 {end} 13655787 13655786")),
            (1, samples::short_stream(Channel::A), format!("heard 8 {end} 13655786 3920015")),
        ];
        for (channel, stream, line) in cases {
            assert_eq!(lines(&mut reader::open(channel).unwrap(), &stream)[0], line);
        }
    }

    #[test]
    fn memory_of_261_bytes_is_too_short() {
        let mut reader = reader::open(0).unwrap();
        assert_eq!(reader.listen(&[1], &mut [0; 261]), Err(Refusal::Memory));
        assert_eq!(reader, reader::open(0).unwrap());
        assert_eq!(reader.listen(&[1], &mut [0; 262]), Ok(Heard { told: Told::Nothing, taken: 1 }));
    }
}
