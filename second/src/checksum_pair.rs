//! 02 C-18: the two checksums that refusals 4 and 8 tell, the one found in the bytes and the one worked out.

use std::fmt;

use crate::random::Random;

/// A status that is put may have any two numbers.
#[derive(Clone, Copy, Debug, Default, PartialEq, Eq, PartialOrd, Ord)]
pub struct ChecksumPair {
    pub found: u32,
    pub expected: u32,
}

/// Numbers at the ends of those that a header checksum, a frame checksum and a script can have, and some whose lowest
/// bytes or whose sum with another one are 0.
const ENDS: [u32; 10] =
    [1, 0x7FF, 0x800, 0xFF_FFFF, 0x100_0000, 0x1_0000, 0x7FFF_FFFF, 0x8000_0000, u32::MAX - 1, u32::MAX];

impl ChecksumPair {
    /// Beside every other number, and with an accepted frame.
    pub const NONE: ChecksumPair = ChecksumPair { found: 0, expected: 0 };

    pub fn is_none(self) -> bool {
        self == ChecksumPair::NONE
    }

    /// Whether the checksum found isn't the one that belongs there.
    pub fn differs(self) -> bool {
        self.found != self.expected
    }

    /// None, one of the two alone, equal ones, and any.
    pub fn any(random: &mut Random) -> ChecksumPair {
        if random.one_in(6) {
            return ChecksumPair::NONE;
        }
        ChecksumPair::some(random)
    }

    /// The same with at least one number other than 0.
    pub fn some(random: &mut Random) -> ChecksumPair {
        let (one, other) = (other_than_0(random), other_than_0(random));
        match random.below(8) {
            0 | 1 => ChecksumPair { found: one, expected: 0 },
            2 | 3 => ChecksumPair { found: 0, expected: one },
            4 => ChecksumPair { found: one, expected: one },
            _ => ChecksumPair { found: one, expected: other },
        }
    }
}

/// As large as a header checksum, as a frame checksum or as can be.
fn other_than_0(random: &mut Random) -> u32 {
    match random.below(4) {
        0 => random.pick(&ENDS),
        1 => random.between(1, 0x7FF) as u32,
        2 => random.between(1, 0xFF_FFFF) as u32,
        _ => random.between(1, u32::MAX as usize) as u32,
    }
}

/// As every line has them.
impl fmt::Display for ChecksumPair {
    fn fmt(&self, to: &mut fmt::Formatter) -> fmt::Result {
        write!(to, "{} {}", self.found, self.expected)
    }
}

#[cfg(test)]
mod tests {
    use super::*;

    #[test]
    fn the_one_found_comes_first() {
        let pair = ChecksumPair { found: 1695, expected: u32::MAX };
        assert_eq!(pair.to_string(), "1695 4294967295");
        assert_eq!(ChecksumPair::default(), ChecksumPair::NONE);
        assert_eq!(ChecksumPair::NONE.to_string(), "0 0");
    }

    #[test]
    fn none_has_no_number() {
        for (found, expected, none, differs) in
            [(0, 0, true, false), (1, 0, false, true), (0, 1, false, true), (7, 7, false, false), (7, 8, false, true)]
        {
            let pair = ChecksumPair { found, expected };
            assert_eq!((pair.is_none(), pair.differs()), (none, differs), "{pair}");
        }
    }

    /// Either number alone, equal ones, and numbers that no checksum has.
    #[test]
    fn pairs_of_every_sort() {
        let mut random = Random::from_seed(18);
        let pairs: Vec<ChecksumPair> = (0..4_000).map(|_| ChecksumPair::any(&mut random)).collect();
        let count = |is: fn(&ChecksumPair) -> bool| pairs.iter().filter(|pair| is(pair)).count();
        assert!(count(|pair| pair.is_none()) > 400);
        assert!(count(|pair| pair.found > 0 && pair.expected == 0) > 400);
        assert!(count(|pair| pair.found == 0 && pair.expected > 0) > 400);
        assert!(count(|pair| pair.found > 0 && !pair.differs()) > 200);
        assert!(count(|pair| pair.found.min(pair.expected) > 0xFF_FFFF) > 100);
        assert!(pairs.iter().all(|_| !ChecksumPair::some(&mut random).is_none()));
    }
}
