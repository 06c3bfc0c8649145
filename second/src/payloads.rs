//! Payloads to write: zeros, one byte other than 0 among them, or any bytes. 02 C-16 asks for zeros in null frames.

use crate::frame::Indicators;
use crate::random::Random;

/// Zeros but for the byte at one place.
pub fn with_byte(size: usize, place: usize, byte: u8) -> Vec<u8> {
    let mut payload = vec![0; size];
    payload[place] = byte;
    payload
}

/// Where the bytes other than 0 stand.
pub fn places(payload: &[u8]) -> Vec<usize> {
    (0..payload.len()).filter(|place| payload[*place] > 0).collect()
}

/// One that such a frame is written with: zeros in a null frame, and anything in another one.
pub fn writable(random: &mut Random, indicators: Indicators, size: usize) -> Vec<u8> {
    if indicators.null_frame {
        return any(random, size);
    }
    vec![0; size]
}

/// Also what a null frame may have, and what it may not.
fn any(random: &mut Random, size: usize) -> Vec<u8> {
    match random.below(6) {
        0 => vec![0; size],
        1 | 2 if size > 0 => not_zeros(random, size),
        _ => random.bytes(size),
    }
}

/// One byte other than 0 as a rule, at the ends as often as anywhere; the size is not 0.
pub fn not_zeros(random: &mut Random, size: usize) -> Vec<u8> {
    let place = match random.below(3) {
        0 => 0,
        1 => size - 1,
        _ => random.below(size),
    };
    let byte = other_than_0(random);
    if random.one_in(6) {
        let mut payload = random.bytes(size);
        payload[place] = byte;
        return payload;
    }
    with_byte(size, place, byte)
}

/// A single bit as often as any byte.
fn other_than_0(random: &mut Random) -> u8 {
    if random.coin() {
        return 1 << random.below(8);
    }
    random.between(1, 255) as u8
}

#[cfg(test)]
mod tests {
    use super::*;

    #[test]
    fn places_by_hand() {
        assert_eq!(with_byte(4, 2, 7), [0, 0, 7, 0]);
        assert_eq!(places(&[0, 0, 7, 0]), [2]);
        assert_eq!(places(&[128, 0, 0, 1]), [0, 3]);
        assert_eq!(places(&[0; 254]), []);
        assert_eq!(places(&[]), []);
    }

    /// A null frame's are zeros; another one's have no byte other than 0, one or many.
    #[test]
    fn writable_ones_of_every_sort() {
        let mut random = Random::from_seed(16);
        let null = Indicators::from_flags(0);
        let other = Indicators { null_frame: true, ..null };
        let mut count = |indicators, others: fn(usize) -> bool| {
            (0..600).filter(|_| others(places(&writable(&mut random, indicators, 6)).len())).count()
        };
        assert_eq!(count(null, |others| others == 0), 600);
        assert!(count(other, |others| others == 0) > 60);
        assert!(count(other, |others| others == 1) > 60);
        assert!(count(other, |others| others > 1) > 60);
        assert_eq!(writable(&mut random, other, 0), []);
    }

    /// Just one byte at the first place, at the last and at each one between, with each bit alone.
    #[test]
    fn bytes_other_than_0_stand_everywhere() {
        let mut random = Random::from_seed(17);
        let payloads: Vec<Vec<u8>> = (0..3_000).map(|_| not_zeros(&mut random, 6)).collect();
        assert!(payloads.iter().all(|payload| !places(payload).is_empty()));
        for place in 0..6 {
            for bit in 0..8 {
                assert!(payloads.contains(&with_byte(6, place, 1 << bit)), "{bit} at {place}");
            }
        }
        assert!(payloads.iter().filter(|payload| places(payload).len() > 1).count() > 300);
    }
}
