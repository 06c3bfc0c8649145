//! What a slot status marks as having occurred (01 "Judging a slot"), and the script's number for it.

use std::collections::BTreeSet;

/// All six marks in the script's number.
pub const NAMED_MARKS: u8 = 0b11_1111;

#[derive(Clone, Copy, Debug, PartialEq, Eq, PartialOrd, Ord)]
pub enum Mark {
    SyntaxError,
    ContentError,
    BoundaryViolation,
    Conflict,
    Valid,
    OwnSending,
}

impl Mark {
    /// From the lowest bit of the script's number up.
    const IN_ORDER: [Mark; 6] =
        [Mark::SyntaxError, Mark::ContentError, Mark::BoundaryViolation, Mark::Conflict, Mark::Valid, Mark::OwnSending];

    pub fn bit(self) -> u8 {
        1 << self as u8
    }
}

#[derive(Clone, Debug, Default, PartialEq, Eq)]
pub struct Marks(BTreeSet<Mark>);

impl Marks {
    /// Bits above the six are not looked at.
    pub fn from_number(number: u8) -> Marks {
        Marks(Mark::IN_ORDER.into_iter().filter(|mark| number & mark.bit() != 0).collect())
    }

    pub fn number(&self) -> u8 {
        self.0.iter().map(|mark| mark.bit()).sum()
    }

    /// 01 "Judging a slot": flags never clear within a slot, so that there is only setting.
    pub fn set(&mut self, mark: Mark) {
        self.0.insert(mark);
    }

    pub fn has(&self, mark: Mark) -> bool {
        self.0.contains(&mark)
    }
}

#[cfg(test)]
mod tests {
    use super::*;

    #[test]
    fn numbers_go_there_and_back() {
        for number in 0..=255 {
            assert_eq!(Marks::from_number(number).number(), number & NAMED_MARKS);
        }
        let alone = Mark::IN_ORDER.map(|mark| Marks(BTreeSet::from([mark])).number());
        assert_eq!(alone, [1, 2, 4, 8, 16, 32]);
        assert!(Marks::from_number(16).has(Mark::Valid));
    }
}
