//! The refusals of 01 "Refusal numbers", and those that 02 adds.

#[derive(Clone, Copy, Debug, PartialEq, Eq, PartialOrd, Ord)]
pub enum Refusal {
    Channel = 1,
    TooFewBytes = 2,
    Size = 3,
    HeaderChecksum = 4,
    WordsAgainstSize = 5,
    IdRead = 6,
    StartupWithoutSync = 7,
    FrameChecksum = 8,
    IdGiven = 9,
    PayloadToWrite = 10,
    Cycle = 11,
    ReservedToWrite = 12,
    Output = 13,
    Time = 14,
    ListFull = 15,
    MeasuredAlready = 16,
    Setting = 17,
    NoCycleOpen = 18,
    CycleOpenAlready = 19,
    NoSyncFrame = 20,
    Control = 21,
    OtherCycle = 22,
    NotSound = 23,
    StartLength = 24,
    PackedOutput = 25,
    NullFramePayload = 26,
    // 30 to 35 are told by a reader of the wire while it goes on.
    LongStart = 30,
    LongFrameStart = 31,
    ByteStartLow = 32,
    ByteStartHigh = 33,
    EndHigh = 34,
    EndLow = 35,
    Memory = 36,
}

/// 01 "Refusal numbers", order of a read.
pub const READ_ORDER: [Refusal; 8] = [
    Refusal::Channel,
    Refusal::TooFewBytes,
    Refusal::Size,
    Refusal::HeaderChecksum,
    Refusal::WordsAgainstSize,
    Refusal::IdRead,
    Refusal::StartupWithoutSync,
    Refusal::FrameChecksum,
];

/// 01 "Refusal numbers" and 02 C-16, order of a write.
pub const WRITE_ORDER: [Refusal; 8] = [
    Refusal::Channel,
    Refusal::IdGiven,
    Refusal::PayloadToWrite,
    Refusal::Cycle,
    Refusal::StartupWithoutSync,
    Refusal::ReservedToWrite,
    Refusal::NullFramePayload,
    Refusal::Output,
];

/// 02 C-11, order of an encoding: those of a read, then two of its own.
pub const ENCODE_ORDER: [Refusal; 10] = {
    let [a, b, c, d, e, f, g, h] = READ_ORDER;
    [a, b, c, d, e, f, g, h, Refusal::StartLength, Refusal::PackedOutput]
};

/// 02 C-13, order of listening.
pub const LISTEN_ORDER: [Refusal; 2] = [Refusal::NotSound, Refusal::Memory];

/// 02 C-13: what a reader tells as an error, of starts and ends and of the bytes that it heard.
pub const TOLD: [Refusal; 10] = [
    Refusal::HeaderChecksum,
    Refusal::IdRead,
    Refusal::StartupWithoutSync,
    Refusal::FrameChecksum,
    Refusal::LongStart,
    Refusal::LongFrameStart,
    Refusal::ByteStartLow,
    Refusal::ByteStartHigh,
    Refusal::EndHigh,
    Refusal::EndLow,
];

/// 01 "Refusal numbers", order of opening a slot.
pub const OPEN_SLOT_ORDER: [Refusal; 4] = [Refusal::Setting, Refusal::Channel, Refusal::IdGiven, Refusal::Cycle];

/// 01 "Refusal numbers", order of opening a cycle.
pub const OPEN_CYCLE_ORDER: [Refusal; 3] = [Refusal::NotSound, Refusal::Cycle, Refusal::CycleOpenAlready];

/// 01 "Refusal numbers", order of measuring.
pub const MEASURE_ORDER: [Refusal; 7] = [
    Refusal::NotSound,
    Refusal::NoCycleOpen,
    Refusal::Time,
    Refusal::NoSyncFrame,
    Refusal::OtherCycle,
    Refusal::MeasuredAlready,
    Refusal::ListFull,
];

/// 01 "Refusal numbers", order of closing a cycle.
pub const CLOSE_CYCLE_ORDER: [Refusal; 3] = [Refusal::NotSound, Refusal::NoCycleOpen, Refusal::Control];

impl Refusal {
    pub fn number(self) -> u8 {
        self as u8
    }

    /// 02 C-18: whether the checksum found and the one worked out come with it.
    pub fn tells_checksums(self) -> bool {
        matches!(self, Refusal::HeaderChecksum | Refusal::FrameChecksum)
    }
}

/// The refusals whose condition holds, in the order in which they stand.
pub fn holding<const N: usize>(conditions: [(Refusal, bool); N]) -> Vec<Refusal> {
    conditions.into_iter().filter(|(_, holds)| *holds).map(|(refusal, _)| refusal).collect()
}

/// 01 "Refusal numbers": of the causes that an entry finds, the first in its order is the answer.
pub fn refuse_first(causes: &[Refusal]) -> Result<(), Refusal> {
    causes.first().map_or(Ok(()), |first| Err(*first))
}

#[cfg(test)]
mod tests {
    use super::*;

    #[test]
    fn orders_stand_as_in_the_paper() {
        assert_eq!(READ_ORDER.map(Refusal::number), [1, 2, 3, 4, 5, 6, 7, 8]);
        assert_eq!(WRITE_ORDER.map(Refusal::number), [1, 9, 10, 11, 7, 12, 26, 13]);
        assert_eq!(ENCODE_ORDER.map(Refusal::number), [1, 2, 3, 4, 5, 6, 7, 8, 24, 25]);
        assert_eq!(OPEN_SLOT_ORDER.map(Refusal::number), [17, 1, 9, 11]);
        assert_eq!(OPEN_CYCLE_ORDER.map(Refusal::number), [23, 11, 19]);
        assert_eq!(MEASURE_ORDER.map(Refusal::number), [23, 18, 14, 20, 22, 16, 15]);
        assert_eq!(CLOSE_CYCLE_ORDER.map(Refusal::number), [23, 18, 21]);
        assert_eq!(LISTEN_ORDER.map(Refusal::number), [23, 36]);
        assert_eq!(TOLD.map(Refusal::number), [4, 6, 7, 8, 30, 31, 32, 33, 34, 35]);
    }

    #[test]
    fn two_refusals_tell_checksums() {
        let telling = ENCODE_ORDER.into_iter().chain(TOLD).filter(|refusal| refusal.tells_checksums());
        assert_eq!(telling.map(Refusal::number).collect::<Vec<u8>>(), [4, 8, 4, 8]);
    }
}
