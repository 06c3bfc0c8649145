//! 02 C-17: the mark by which a report says which settings sheet it was worked out by. The marks of a slot status are
//! something else.

use std::fmt;

use crate::random::Random;

/// Any number: it has no range, and is never a cause for 17.
#[derive(Clone, Copy, Debug, Default, PartialEq, Eq, PartialOrd, Ord)]
pub struct SheetMark(pub u32);

/// Its bytes are all different, and its highest bit is set.
pub const USUAL: SheetMark = SheetMark(0x8765_4321);

/// The ends of all numbers, and `USUAL` but for the lowest bit, the highest bit, either half or the order of bytes.
pub const OTHERS: [SheetMark; 8] = [
    SheetMark(0),
    SheetMark(1),
    SheetMark(u32::MAX),
    SheetMark(0x8765_4320),
    SheetMark(0x0765_4321),
    SheetMark(0x0000_4321),
    SheetMark(0x8765_0000),
    SheetMark(0x2143_6587),
];

impl SheetMark {
    /// The usual one, 0 and the others of above come again and again, so that two marks are often equal.
    pub fn any(random: &mut Random) -> SheetMark {
        match random.below(16) {
            0..=4 => USUAL,
            5..=7 => SheetMark(0),
            8..=14 => random.pick(&OTHERS),
            _ => SheetMark(random.below(1 << 32) as u32),
        }
    }

    /// A mark that isn't this one: any, or one that differs from it in one bit, often at the end of a half.
    pub fn other(self, random: &mut Random) -> SheetMark {
        let any = SheetMark::any(random);
        if random.coin() && any != self {
            return any;
        }
        let bit = random.below(32);
        self.with_bit_turned(random.pick(&[0, 15, 16, 31, bit, bit]))
    }

    pub fn with_bit_turned(self, bit: usize) -> SheetMark {
        SheetMark(self.0 ^ 1 << bit)
    }
}

impl fmt::Display for SheetMark {
    fn fmt(&self, to: &mut fmt::Formatter) -> fmt::Result {
        self.0.fmt(to)
    }
}

#[cfg(test)]
mod tests {
    use super::*;

    #[test]
    fn marks_are_often_equal_and_often_not() {
        let mut random = Random::from_seed(17);
        let pairs: Vec<[SheetMark; 2]> = (0..4_000).map(|_| [(); 2].map(|_| SheetMark::any(&mut random))).collect();
        let equal = pairs.iter().filter(|[one, two]| one == two).count();
        assert!(equal > 400 && equal < 2_000, "{equal}");
        for [one, _] in pairs {
            assert!(one.other(&mut random) != one);
        }
    }
}
