//! 02 C-18: the checksum found and the one worked out, which 4 and 8 tell wherever frames are read, and which slots keep.

mod digits;
mod frames;
mod put_statuses;
mod silent;
mod slots;

use super::bench::refused_line;
use super::listed_frames::hex;
use crate::checksum_pair::ChecksumPair;
use crate::plan::{Expected, Plan};
use crate::random::Random;
use crate::script::{Command, Encode, OnChannel};

pub use digits::{OF_HEADER, OF_TRAILER};
pub use frames::{wrong_frames, SIZES};
pub use put_statuses::PAIRS;

pub fn add(plan: &mut Plan, random: &mut Random) {
    add_frames(plan, random);
    slots::add(plan, random);
    put_statuses::add(plan, random);
}

/// What is about frames alone.
pub fn add_frames(plan: &mut Plan, random: &mut Random) {
    frames::add(plan, random);
    digits::add(plan);
    silent::add(plan, random);
}

/// Bytes that are refused by this number: read, encoded, and given to the bench program. Of an encoding neither start
/// length nor room are looked at.
fn add_refused(plan: &mut Plan, given: &OnChannel, number: u8, checksums: ChecksumPair) {
    let OnChannel { channel, bytes } = given;
    plan.add(Command::read(*channel, bytes), Expected::Line(format!("read {number} - {checksums}")));
    plan.add(Command::bench(*channel, bytes), Expected::Line(refused_line(number, checksums)));
    for (start, room) in [(3, 2), (0, 0)] {
        let encode = Encode { channel: *channel, start, frame: bytes.clone(), room };
        let line = format!("encode {number} 0 {} {checksums}", hex(&vec![0xA5; room]));
        plan.add(Command::Encode(encode), Expected::Line(line));
    }
}
