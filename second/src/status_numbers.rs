//! A slot status in the numbers of a script, as `T` hands it in and `D` shows it.

use crate::channel::Channel;
use crate::checksum_pair::ChecksumPair;
use crate::frame::{Fields, Indicators};
use crate::marks::{Marks, NAMED_MARKS};
use crate::reason::Reason;
use crate::settings::Settings;
use crate::slot::SlotStatus;

const NAMED_FLAGS: u8 = 0b1_1111;

/// The fields of a kept frame.
#[derive(Clone, Copy, Debug, Default, PartialEq, Eq)]
pub struct HeaderNumbers {
    pub flags: u8,
    pub id: u16,
    pub words: u8,
    pub checksum: u16,
    pub cycle: u8,
}

impl HeaderNumbers {
    pub fn of(fields: &Fields) -> HeaderNumbers {
        HeaderNumbers {
            flags: fields.indicators.flags(),
            id: fields.id,
            words: fields.words,
            checksum: fields.header_checksum,
            cycle: fields.cycle,
        }
    }

    pub fn fields(&self) -> Fields {
        Fields {
            indicators: Indicators::from_flags(self.flags),
            id: self.id,
            words: self.words,
            header_checksum: self.checksum,
            cycle: self.cycle,
        }
    }

    /// The same numbers with the header checksum put right.
    pub fn with_right_checksum(self) -> HeaderNumbers {
        HeaderNumbers { checksum: self.fields().right_header_checksum(), ..self }
    }
}

#[derive(Clone, Copy, Debug, Default, PartialEq, Eq)]
pub struct StatusNumbers {
    pub settings: Settings,
    pub channel: Channel,
    pub slot: u16,
    pub cycle: u8,
    pub marks: u8,
    pub reason: u8,
    pub kept: bool,
    pub header: HeaderNumbers,
    pub checksums: ChecksumPair,
}

impl StatusNumbers {
    /// What is absent is 0.
    pub fn of(status: &SlotStatus) -> StatusNumbers {
        StatusNumbers {
            settings: status.settings,
            channel: status.channel,
            slot: status.slot,
            cycle: status.cycle,
            marks: status.marks.number(),
            reason: status.reason.map_or(0, Reason::number),
            kept: status.kept.is_some(),
            header: status.kept.as_ref().map(HeaderNumbers::of).unwrap_or_default(),
            checksums: status.checksums,
        }
    }

    pub fn status(&self) -> SlotStatus {
        SlotStatus {
            settings: self.settings,
            channel: self.channel,
            slot: self.slot,
            cycle: self.cycle,
            marks: Marks::from_number(self.marks),
            reason: Reason::from_number(self.reason),
            kept: self.kept.then(|| self.header.fields()),
            checksums: self.checksums,
        }
    }

    /// The numbers without what a script says but nobody looks at: unnamed bits, and a header behind "not kept".
    pub fn looked_at(&self) -> StatusNumbers {
        let named = HeaderNumbers { flags: self.header.flags & NAMED_FLAGS, ..self.header };
        let header = if self.kept { named } else { HeaderNumbers::default() };
        StatusNumbers { marks: self.marks & NAMED_MARKS, header, ..*self }
    }

    /// The second line of `D`.
    pub fn line(&self) -> String {
        let opened = [self.channel.number().into(), self.slot, self.cycle.into()];
        let found = [self.marks, self.reason, u8::from(self.kept), self.header.flags].map(u16::from);
        let header = &self.header;
        let kept = [header.id, header.words.into(), header.checksum, header.cycle.into()];
        let numbers = [&opened[..], &found, &kept].concat();
        let rest: Vec<String> = numbers.iter().map(u16::to_string).collect();
        let Settings { mark, .. } = self.settings;
        format!("status {} {} {mark} {}", self.settings.numbers(), rest.join(" "), self.checksums)
    }
}

#[cfg(test)]
mod tests {
    use super::*;
    use crate::sheet_mark::SheetMark;

    fn all_different() -> StatusNumbers {
        StatusNumbers {
            settings: Settings {
                fields: [101, 102, 103, 104, 105, 106, 107, 108, 109, 110, u32::MAX],
                sends_sync: true,
                mark: SheetMark(4_000_000_001),
            },
            channel: Channel::B,
            slot: 65535,
            cycle: 113,
            marks: 42,
            reason: 6,
            kept: true,
            header: HeaderNumbers { flags: 21, id: 117, words: 118, checksum: 119, cycle: 120 },
            checksums: ChecksumPair { found: 121, expected: u32::MAX - 1 },
        }
    }

    #[test]
    fn every_number_has_its_place() {
        let line = "status 101 102 103 104 105 106 107 108 109 110 4294967295 1 1 65535 113 42 6 1 21 117 118 119 120";
        let line = format!("{line} 4000000001 121 4294967294");
        assert_eq!(all_different().line(), line);
        assert_eq!(StatusNumbers::default().line(), format!("status{}", " 0".repeat(26)));
    }

    #[test]
    fn numbers_go_there_and_back() {
        let numbers = all_different();
        assert_eq!(StatusNumbers::of(&numbers.status()), numbers);
        assert_eq!(StatusNumbers::default().status(), SlotStatus::default());
        let header = HeaderNumbers { flags: 0xF5, ..numbers.header };
        for kept in [false, true] {
            let unlooked = StatusNumbers { marks: 0xEA, kept, header, ..numbers };
            assert_eq!(StatusNumbers::of(&unlooked.status()), unlooked.looked_at());
        }
    }
}
