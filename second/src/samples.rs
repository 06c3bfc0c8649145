//! Samples as a recorder takes them: eight for each bit, frames behind idle bits.

use crate::bit_clock::SAMPLES_PER_BIT;
use crate::channel::Channel;
use crate::listed_frames::SHORT;
use crate::script::Run;
use crate::wire;

/// How a recorder shows the two levels as a rule; every other byte is high as well.
pub const LOW: u8 = 0;
pub const HIGH: u8 = 1;

/// As many idle bits as 02 C-13 asks for before a frame.
pub const IDLE_BITS: usize = 11;

/// The eight samples of each bit.
pub fn of_bits(bits: &[bool]) -> Vec<u8> {
    let per_bit = usize::from(SAMPLES_PER_BIT);
    bits.iter().flat_map(|bit| vec![if *bit { HIGH } else { LOW }; per_bit]).collect()
}

pub fn idle(bits: usize) -> Vec<u8> {
    of_bits(&vec![true; bits])
}

/// The stream of a frame alone.
pub fn of_frame(start: u8, frame: &[u8]) -> Vec<u8> {
    of_bits(&wire::stream(start, frame))
}

/// The same behind idle bits.
pub fn behind_idle(start: u8, frame: &[u8]) -> Vec<u8> {
    [idle(IDLE_BITS), of_frame(start, frame)].concat()
}

/// The smallest frame of all, behind eleven idle bits and with start length 3.
pub fn short_stream(channel: Channel) -> Vec<u8> {
    behind_idle(3, &SHORT.bytes(channel))
}

/// Idle bits, one low bit, and four high ones, which is one too many.
pub fn false_start() -> Vec<u8> {
    let bits = [&[true; IDLE_BITS][..], &[false], &[true; 4]].concat();
    of_bits(&bits)
}

/// The fewest runs that make these samples.
pub fn runs(samples: &[u8]) -> Vec<Run> {
    let mut runs: Vec<Run> = Vec::new();
    for sample in samples {
        match runs.last_mut() {
            Some(last) if last.sample == *sample && last.times < u8::MAX => last.times += 1,
            _ => runs.push(Run { sample: *sample, times: 1 }),
        }
    }
    runs
}

#[cfg(test)]
mod tests {
    use super::*;
    use crate::script::Listen;

    #[test]
    fn runs_make_the_samples() {
        for samples in [vec![], vec![7], vec![0; 300], vec![1, 1, 2, 0, 0], short_stream(Channel::B)] {
            let listen = Listen { room: 0, runs: runs(&samples) };
            assert_eq!(listen.samples(), samples);
        }
        assert_eq!(runs(&[9, 9, 0]), [Run { sample: 9, times: 2 }, Run { sample: 0, times: 1 }]);
        assert_eq!(runs(&[5; 256]).len(), 2);
    }

    #[test]
    fn streams_by_hand() {
        let stream = short_stream(Channel::A);
        assert_eq!(stream.len(), 8 * (11 + 86));
        assert!(stream[..88].iter().all(|sample| *sample == HIGH));
        assert!(stream[88..112].iter().all(|sample| *sample == LOW));
        assert_eq!(stream[112..128], [HIGH; 16]);
        assert_eq!(stream[128..136], [LOW; 8]);
    }
}
