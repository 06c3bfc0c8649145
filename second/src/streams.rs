//! Streams of samples with something wrong in them, at random.

use crate::bit_clock::SAMPLES_PER_BIT;
use crate::random::Random;
use crate::samples::{self, HIGH, IDLE_BITS, LOW};

/// Bytes that stand for a high sample now and then.
const HIGH_SAMPLES: [u8; 4] = [2, 127, 128, 255];

/// The other level, high ones by any byte.
fn change(random: &mut Random, sample: &mut u8) {
    *sample = if *sample == LOW { random.pick(&HIGH_SAMPLES) } else { LOW };
}

/// Some samples changed, far apart from each other as a rule.
pub fn disturbed(random: &mut Random, samples: &[u8]) -> Vec<u8> {
    let mut disturbed = samples.to_vec();
    for _ in 0..random.between(1, 12) {
        let place = random.below(disturbed.len());
        change(random, &mut disturbed[place]);
    }
    disturbed
}

/// Bits, stretches or lengths that are wrong, up to three of them.
pub fn damaged(random: &mut Random, samples: &[u8]) -> Vec<u8> {
    let mut damaged = samples.to_vec();
    for _ in 0..random.between(1, 3) {
        match random.below(5) {
            0 | 1 => turn_bit(random, &mut damaged),
            2 => level(random, &mut damaged),
            3 => {
                damaged.remove(random.below(damaged.len()));
            }
            _ => insert(random, &mut damaged),
        }
    }
    damaged
}

/// The samples of one bit, as they lie in a stream without a fault.
fn turn_bit(random: &mut Random, samples: &mut [u8]) {
    let per_bit = usize::from(SAMPLES_PER_BIT);
    let first = per_bit * random.below(samples.len() / per_bit);
    samples[first..first + per_bit].iter_mut().for_each(|sample| change(random, sample));
}

/// A stretch of one level.
fn level(random: &mut Random, samples: &mut [u8]) {
    let length = random.between(3, 40).min(samples.len());
    let first = random.below(samples.len() - length + 1);
    samples[first..first + length].fill(random.pick(&[LOW, HIGH]));
}

/// A few samples more.
fn insert(random: &mut Random, samples: &mut Vec<u8>) {
    let place = random.below(samples.len());
    let more = vec![random.pick(&[LOW, HIGH]); random.between(1, 12)];
    samples.splice(place..place, more);
}

/// Bits of seven to nine samples behind idle ones, few of other length as a rule, and many now and then.
pub fn drifting(random: &mut Random, bits: &[bool]) -> Vec<u8> {
    let rare = random.pick(&[2, 6, 12, 24]);
    let shorter = random.coin();
    let mut drifting = samples::idle(IDLE_BITS);
    for bit in bits {
        let other = random.one_in(rare);
        let length = if !other {
            8
        } else if shorter {
            7
        } else {
            9
        };
        drifting.extend(vec![u8::from(*bit); length]);
    }
    drifting
}

/// Levels that change when they like.
pub fn noise(random: &mut Random, size: usize) -> Vec<u8> {
    let longest = random.pick(&[3, 12, 40, 160]);
    let mut noise = Vec::new();
    while noise.len() < size {
        let sample = random.pick(&[LOW, HIGH, 255]);
        noise.extend(vec![sample; random.between(1, longest)]);
    }
    noise.truncate(size);
    noise
}
