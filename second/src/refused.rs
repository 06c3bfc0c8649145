//! 02 C-18: a refusal of bytes with all that it tells beside its number.

use crate::checksum_pair::ChecksumPair;
use crate::refusal::Refusal;

#[derive(Clone, Copy, Debug, PartialEq, Eq)]
pub struct Refused {
    pub refusal: Refusal,
    pub checksums: ChecksumPair,
}

/// One that tells nothing more.
impl From<Refusal> for Refused {
    fn from(refusal: Refusal) -> Refused {
        Refused { refusal, checksums: ChecksumPair::NONE }
    }
}

impl Refused {
    pub fn number(self) -> u8 {
        self.refusal.number()
    }
}
