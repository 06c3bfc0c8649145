//! Bytes that are refused where a frame is read, with the checksums that by 02 C-18 are told beside that. They are known
//! from how the bytes were made, and not from reading them.

use crate::channel::Channel;
use crate::checksum_pair::ChecksumPair;
use crate::draft::Draft;
use crate::faults::{cut_short, faulty_draft};
use crate::random::Random;
use crate::refusal::Refusal;
use crate::script::OnChannel;

#[derive(Clone, Debug)]
pub struct Unreadable {
    /// The one on which they are refused.
    pub channel: Channel,
    pub bytes: Vec<u8>,
    pub refusal: Refusal,
    pub checksums: ChecksumPair,
}

impl Unreadable {
    /// With a cause for this refusal, and for none before it: the frame is right otherwise.
    pub fn any(random: &mut Random, fair: Draft, refusal: Refusal) -> Unreadable {
        let wrong = faulty_draft(random, fair, &[refusal]);
        match refusal {
            Refusal::HeaderChecksum => Unreadable::by_header(&wrong),
            Refusal::FrameChecksum => Unreadable::by_trailer(&wrong, wrong.channel),
            _ => {
                let bytes = cut_short(random, wrong.bytes(), &[refusal]);
                Unreadable::silent(refusal, wrong.channel, bytes)
            }
        }
    }

    /// One of the two refusals that tell checksums, often with a small number or 0 as either of them.
    pub fn telling(random: &mut Random, fair: Draft) -> Unreadable {
        let refusal = random.pick(&[Refusal::HeaderChecksum, Refusal::FrameChecksum]);
        let draft = match refusal {
            Refusal::HeaderChecksum if random.one_in(4) => {
                let wanted = number_of_any_length(random, 11) as u16;
                fair.with_id_for(wanted)
            }
            Refusal::FrameChecksum if fair.words > 1 && random.coin() => {
                let wanted = number_of_any_length(random, 24);
                fair.with_frame_checksum(wanted)
            }
            _ => fair,
        };
        Unreadable::any(random, draft, refusal)
    }

    /// The header checksum is wrong, and nothing that comes before it.
    pub fn by_header(wrong: &Draft) -> Unreadable {
        let (channel, checksums) = (wrong.channel, wrong.header_checksums());
        Unreadable { channel, bytes: wrong.bytes(), refusal: Refusal::HeaderChecksum, checksums }
    }

    /// The trailer is wrong on this channel, and nothing else is.
    pub fn by_trailer(wrong: &Draft, channel: Channel) -> Unreadable {
        let checksums = wrong.frame_checksums_on(channel);
        Unreadable { channel, bytes: wrong.bytes(), refusal: Refusal::FrameChecksum, checksums }
    }

    /// Refused by a number that tells no checksums.
    pub fn silent(refusal: Refusal, channel: Channel, bytes: Vec<u8>) -> Unreadable {
        Unreadable { channel, bytes, refusal, checksums: ChecksumPair::NONE }
    }

    pub fn on_channel(&self) -> OnChannel {
        OnChannel { channel: self.channel.number(), bytes: self.bytes.clone() }
    }
}

/// Any number of so many bits, one of few digits as often as one of many, and 0.
pub fn number_of_any_length(random: &mut Random, bits: u32) -> u32 {
    let digits = random.between(0, 8) as u32;
    random.below(10usize.pow(digits).min(1 << bits)) as u32
}

#[cfg(test)]
mod tests {
    use super::*;
    use crate::draft::fair_words;
    use crate::frame;
    use crate::refusal::READ_ORDER;
    use crate::refused::Refused;

    fn read(unreadable: &Unreadable) -> Refused {
        frame::read(unreadable.channel.number(), &unreadable.bytes).unwrap_err()
    }

    /// What is known of the bytes is what reading tells of them.
    #[test]
    fn reading_tells_the_same() {
        let mut random = Random::from_seed(41);
        for place in 0..1_400 {
            let channel = Channel::BOTH[place % 2];
            let words = fair_words(&mut random);
            let fair = Draft::fair(&mut random, channel, words);
            let unreadable = match place % 9 {
                7 => Unreadable::by_trailer(&fair, channel.other()),
                8 => Unreadable::telling(&mut random, fair),
                refusal => Unreadable::any(&mut random, fair, READ_ORDER[1 + refusal]),
            };
            let Unreadable { refusal, checksums, .. } = unreadable;
            assert_eq!(read(&unreadable), Refused { refusal, checksums });
            assert_eq!(checksums.differs(), refusal.tells_checksums());
        }
    }

    /// Either number of either refusal is 0 now and then, and has every number of digits.
    #[test]
    fn numbers_of_every_length() {
        let mut random = Random::from_seed(42);
        let all: Vec<Unreadable> = (0..4_000)
            .map(|_| {
                let fair = Draft::fair(&mut random, Channel::B, 3);
                Unreadable::telling(&mut random, fair)
            })
            .collect();
        for (refusal, most) in [(Refusal::HeaderChecksum, 4), (Refusal::FrameChecksum, 8)] {
            for length in 0..=most {
                let has = |number: u32| number.checked_ilog10().map_or(0, |highest| highest + 1) == length;
                let of_refusal = || all.iter().filter(|unreadable| unreadable.refusal == refusal);
                let found = of_refusal().filter(|unreadable| has(unreadable.checksums.found)).count();
                let expected = of_refusal().filter(|unreadable| has(unreadable.checksums.expected)).count();
                assert!(found > 8 && expected > 8, "{length} of {refusal:?}: {found} and {expected}");
            }
        }
    }
}
