//! Numbers of every length in the place of either checksum, so that a digit too many or too few would show.

use super::super::bench::refused_line;
use crate::channel::Channel;
use crate::checksum_pair::ChecksumPair;
use crate::draft::Draft;
use crate::frame::NULL_FRAME_BIT;
use crate::plan::{Expected, Plan};
use crate::script::Command;

/// The lowest and the highest number of each length that a header checksum can have, and 0.
pub const OF_HEADER: [[u32; 2]; 5] = [[0, 0], [1, 9], [10, 99], [100, 999], [1000, 0x7FF]];

/// The same of a trailer. With two of the longest the bench program's line is as long as it can be.
pub const OF_TRAILER: [[u32; 2]; 9] = [
    [0, 0],
    [1, 9],
    [10, 99],
    [100, 999],
    [1000, 9999],
    [10_000, 99_999],
    [100_000, 999_999],
    [1_000_000, 9_999_999],
    [10_000_000, 0xFF_FFFF],
];

pub(super) fn add(plan: &mut Plan) {
    for channel in Channel::BOTH {
        for pair in pairs(&OF_HEADER) {
            let draft = Draft::plain(channel, NULL_FRAME_BIT, 1, 1, 9).with_id_for(pair.expected as u16);
            let header_checksum_change = (pair.found ^ pair.expected) as u16;
            add_told(plan, &Draft { header_checksum_change, ..draft }, 4, pair);
        }
        for pair in pairs(&OF_TRAILER) {
            let draft = Draft::plain(channel, NULL_FRAME_BIT, 5, 2, 9).with_frame_checksum(pair.expected);
            add_told(plan, &Draft { frame_checksum_change: pair.found ^ pair.expected, ..draft }, 8, pair);
        }
    }
}

/// The lowest number of each length beside the highest of each, and the other way round, unless both are 0.
fn pairs(lengths: &[[u32; 2]]) -> Vec<ChecksumPair> {
    let mut pairs = Vec::new();
    for [low_found, high_found] in lengths {
        for [low_expected, high_expected] in lengths {
            pairs.push(ChecksumPair { found: *low_found, expected: *high_expected });
            pairs.push(ChecksumPair { found: *high_found, expected: *low_expected });
        }
    }
    pairs.retain(|pair| pair.differs());
    pairs
}

fn add_told(plan: &mut Plan, wrong: &Draft, number: u8, checksums: ChecksumPair) {
    let (channel, bytes) = (wrong.channel.number(), wrong.bytes());
    plan.add(Command::bench(channel, &bytes), Expected::Line(refused_line(number, checksums)));
    plan.add(Command::read(channel, &bytes), Expected::Line(format!("read {number} - {checksums}")));
}
