//! The streaming reader of the wire (02 C-13): opened on a channel, and given samples in pieces of any size.

use crate::bit_clock::{BitClock, Tick};
use crate::channel::Channel;
use crate::decoder::{Decoder, Phase, Told};
use crate::frame::LARGEST_FRAME;
use crate::refusal::{holding, refuse_first, Refusal};

/// 002, section 3.2.7.1: eleven bits in samples, after which the channel is idle.
pub const IDLE_SAMPLES: u8 = 88;

/// At most so many samples lie between two strobes: an edge up to eight behind the first, and four to the second.
const BETWEEN_STROBES: u32 = 12;

/// The default one is all zeros, which isn't sound.
#[derive(Clone, Copy, Debug, Default, PartialEq, Eq)]
pub struct Reader {
    pub channel: Channel,
    pub clock: BitClock,
    /// Voted values since the last low bit, as far as they count.
    pub timer: u8,
    pub decoder: Decoder,
}

/// What one call of listening gives besides the reader and the memory.
#[derive(Clone, Copy, Debug, PartialEq, Eq)]
pub struct Heard {
    pub told: Told,
    /// The samples that were taken, the one that told it among them.
    pub taken: usize,
}

/// Opens a reader; the only refusal is that of a channel.
pub fn open(channel: u8) -> Result<Reader, Refusal> {
    let channel = Channel::from_number(channel)?;
    Ok(Reader { channel, clock: BitClock::fresh(), ..Reader::default() })
}

/// 0 is low, every other byte is high.
pub fn is_high(sample: u8) -> bool {
    sample != 0
}

impl Reader {
    /// Listens up to the first sample that tells something, or to the last.
    pub fn listen(&mut self, samples: &[u8], memory: &mut [u8]) -> Result<Heard, Refusal> {
        refuse_first(&self.listening_causes(memory.len()))?;
        for (place, sample) in samples.iter().enumerate() {
            let told = self.take(*sample, memory);
            if told != Told::Nothing {
                return Ok(Heard { told, taken: place + 1 });
            }
        }
        Ok(Heard { told: Told::Nothing, taken: samples.len() })
    }

    /// Every cause for a refusal of listening, in the order 23, 36.
    pub fn listening_causes(&self, room: usize) -> Vec<Refusal> {
        holding([(Refusal::NotSound, !self.is_sound()), (Refusal::Memory, room < LARGEST_FRAME)])
    }

    /// One sample of a sound reader.
    pub fn take(&mut self, sample: u8, memory: &mut [u8]) -> Told {
        self.decoder.count_sample();
        match self.clock.take(is_high(sample)) {
            Tick::Unvoted => Told::Nothing,
            Tick::Voted => {
                self.tick();
                Told::Nothing
            }
            Tick::Strobe(high) => {
                self.tick();
                self.take_bit(high, memory)
            }
        }
    }

    fn tick(&mut self) {
        self.timer = IDLE_SAMPLES.min(self.timer + 1);
    }

    fn take_bit(&mut self, high: bool, memory: &mut [u8]) -> Told {
        let idle = self.timer == IDLE_SAMPLES;
        if !high {
            self.timer = 0;
        } else if !matches!(self.decoder.phase, Phase::Byte(..)) {
            self.clock.realigns = true;
        }
        self.decoder.take(high, idle, self.channel, memory)
    }

    /// 02 C-13: what makes a reader sound, the memory aside.
    pub fn is_sound(&self) -> bool {
        self.clock.is_sound() && self.timer_is_sound() && self.decoder.is_sound() && self.since_is_sound()
    }

    fn timer_is_sound(&self) -> bool {
        let begun = self.clock.votes();
        self.timer <= IDLE_SAMPLES && (begun || self.timer == 0 && self.decoder.phase == Phase::Waiting)
    }

    /// Sound in all else, so that counter and bits are in their ranges.
    fn since_is_sound(&self) -> bool {
        !self.decoder.phase.has_bytes() || self.decoder.since <= self.most_since()
    }

    /// The most samples that can lie behind the reference point, by the bits that have come and by the counter.
    pub fn most_since(&self) -> u32 {
        let behind_strobe = (u32::from(self.clock.counter) + 2) % 8;
        let behind_edge = if self.clock.realigns { 0 } else { 4 };
        BETWEEN_STROBES * self.decoder.bits() + behind_strobe + behind_edge
    }
}

#[cfg(test)]
mod tests {
    use super::*;
    use crate::draft::Draft;
    use crate::listening::{self, Call};
    use crate::random::Random;
    use crate::samples;
    use crate::streams;

    fn some_stream(random: &mut Random, channel: Channel) -> Vec<u8> {
        let frame = Draft::fair(random, channel, 1).bytes();
        let clean = samples::behind_idle(random.between(1, 17) as u8, &frame);
        match random.below(4) {
            0 => clean,
            1 => streams::disturbed(random, &clean),
            2 => streams::damaged(random, &clean),
            _ => streams::noise(random, 700),
        }
    }

    /// What is told, and at which sample from the first on.
    fn told(calls: &[Call], before: usize) -> Vec<(usize, u8, Vec<u8>)> {
        let mut taken = before;
        let mut all = Vec::new();
        for call in calls {
            taken += call.taken();
            if call.tells() {
                all.push((taken, call.number(), call.bytes.clone()));
            }
        }
        all
    }

    #[test]
    fn cuts_change_nothing() {
        let mut random = Random::from_seed(17);
        for _ in 0..300 {
            let channel = random.pick(&Channel::BOTH);
            let stream = [some_stream(&mut random, channel), some_stream(&mut random, channel)].concat();
            let (mut whole, mut memory) = (open(channel.number()).unwrap(), [0; LARGEST_FRAME]);
            let at_once = told(&listening::calls(&mut whole, &stream, &mut memory), 0);
            let (mut reader, mut other) = (open(channel.number()).unwrap(), [0; LARGEST_FRAME]);
            let mut in_pieces = Vec::new();
            let mut before = 0;
            while before < stream.len() {
                let size = random.between(0, 90).min(stream.len() - before);
                let calls = listening::calls(&mut reader, &stream[before..before + size], &mut other);
                in_pieces.extend(told(&calls, before));
                before += size;
            }
            assert_eq!((in_pieces, reader, other), (at_once, whole, memory));
        }
    }

    /// 02 C-13: what C-11 writes is read back exactly, each bit repeated eight times behind eleven idle ones.
    #[test]
    fn streams_are_read_back() {
        let mut random = Random::from_seed(19);
        for start in 1..=15 {
            for channel in Channel::BOTH {
                let words = random.pick(&[0, 1, 3, 127]);
                let frame = Draft::fair(&mut random, channel, words).bytes();
                let stream = samples::behind_idle(start, &frame);
                let mut reader = open(channel.number()).unwrap();
                let mut memory = [0; LARGEST_FRAME];
                let heard = reader.listen(&stream, &mut memory).unwrap();
                let (given, since) = (8 * (11 + usize::from(start) + 1 + 10 * frame.len()) + 6, 80 * frame.len() - 8);
                let fields = crate::frame::read(channel.number(), &frame).unwrap();
                let told = Told::Frame(fields, frame.len(), since as u32);
                assert_eq!(heard, Heard { told, taken: given + 1 });
                assert_eq!(memory[..frame.len()], frame);
            }
        }
    }

    /// Every accepted call returns a sound reader.
    #[test]
    fn sound_readers_stay_sound() {
        let mut random = Random::from_seed(23);
        for _ in 0..100 {
            let channel = random.pick(&Channel::BOTH);
            let (mut reader, mut memory) = (open(channel.number()).unwrap(), [0; LARGEST_FRAME]);
            for sample in some_stream(&mut random, channel) {
                assert!(reader.is_sound());
                reader.take(sample, &mut memory);
            }
        }
        assert!(!Reader::default().is_sound());
    }

    /// From the latest reader that is sound, whatever comes: slow strobes as well.
    #[test]
    fn late_readers_stay_sound() {
        let mut random = Random::from_seed(29);
        for place in 0..20_000u32 {
            let mut reader = open(0).unwrap();
            reader.clock = BitClock {
                samples: random.below(16) as u8,
                seen: 4,
                voted: random.coin(),
                counter: random.between(1, 8) as u8,
                realigns: random.coin(),
            };
            let phases = [Phase::ByteStartHigh, Phase::ByteStartLow, Phase::Byte((place % 8) as u8, 0), Phase::EndLow];
            reader.decoder = Decoder { phase: random.pick(&phases), count: 100, since: 0 };
            reader.decoder.since = reader.most_since();
            let mut memory = [0x7F; LARGEST_FRAME];
            for _ in 0..40 {
                assert!(reader.is_sound(), "{reader:?}");
                reader.take(random.pick(&[0, 0, 1]), &mut memory);
            }
        }
    }
}
