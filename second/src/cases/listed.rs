//! The values of 01 "Numbers to check against" that concern frames, and the published check values.

use crate::channel::Channel;
use crate::draft::Draft;
use crate::frame::{LARGEST_FRAME, MOST_WORDS};
use crate::listed_frames::SHORT;
use crate::plan::{Expected, Plan};
use crate::random::Random;
use crate::refusal::Refusal;
use crate::script::{Command, Write};

pub fn add(plan: &mut Plan, random: &mut Random) {
    add_check_values(plan);
    add_header(plan);
    for channel in Channel::BOTH {
        add_sizes(plan, random, channel);
    }
}

/// The published check values on A and B.
pub const CHECK_VALUES: [u32; 2] = [0x7979BD, 0x1F23B8];

fn add_check_values(plan: &mut Plan) {
    for (channel, value) in (0..).zip(CHECK_VALUES) {
        plan.add(Command::checksum(channel, b"123456789"), Expected::Line(format!("checksum 0 {value}")));
    }
}

fn add_header(plan: &mut Plan) {
    for channel in Channel::BOTH {
        let (number, own) = (channel.number(), SHORT.bytes(channel));
        plan.add(Command::read(number, &own), Expected::line("read 0 0 0 1 0 0 1 0 1695 0 - 0 0"));
        plan.add(Command::read(number, &SHORT.bytes(channel.other())), Expected::Refused(Refusal::FrameChecksum));
        for spare in [0, 1, 5] {
            add_written_header(plan, channel, &own, spare);
        }
    }
}

/// The bytes after the frame stay as they were lent.
fn add_written_header(plan: &mut Plan, channel: Channel, frame: &[u8], spare: usize) {
    let exact = SHORT.write(channel);
    let write = Write { room: exact.room + spare, ..exact };
    let written: String = frame.iter().map(|byte| format!("{byte:02x}")).collect();
    plan.add(Command::Write(write), Expected::Line(format!("write 0 8 {written}{}", "a5".repeat(spare))));
}

fn add_sizes(plan: &mut Plan, random: &mut Random, channel: Channel) {
    let small = Draft::fair(random, channel, 0);
    let large = Draft::fair(random, channel, MOST_WORDS);
    for size in [0, 7] {
        add_size(plan, channel, &small.bytes()[..size], Expected::Refused(Refusal::TooFewBytes));
    }
    for (draft, sizes) in [(&small, [9, 10]), (&large, [263, 264])] {
        add_go_on(plan, channel, draft);
        for size in sizes {
            add_longer(plan, random, draft, size);
        }
    }
}

/// 01 says "go on" for this size: once accepted, and once refused later than by the size.
fn add_go_on(plan: &mut Plan, channel: Channel, draft: &Draft) {
    add_size(plan, channel, &draft.bytes(), Expected::Accepted);
    let later = [
        (Draft { header_checksum_change: 1, ..draft.clone() }, Refusal::HeaderChecksum),
        (Draft { words: draft.words ^ 1, ..draft.clone() }, Refusal::WordsAgainstSize),
        (Draft { id: 0, ..draft.clone() }, Refusal::IdRead),
        (Draft { frame_checksum_change: 1, ..draft.clone() }, Refusal::FrameChecksum),
    ];
    for (wrong, refusal) in later {
        add_size(plan, channel, &wrong.bytes(), Expected::Refused(refusal));
    }
}

/// A good frame with bytes behind it.
fn add_longer(plan: &mut Plan, random: &mut Random, draft: &Draft, size: usize) {
    let mut bytes = draft.bytes();
    bytes.extend(random.bytes(size - bytes.len()));
    let misfit = size % 2 == 1 || size > LARGEST_FRAME;
    let refusal = if misfit { Refusal::Size } else { Refusal::WordsAgainstSize };
    add_size(plan, draft.channel, &bytes, Expected::Refused(refusal));
}

fn add_size(plan: &mut Plan, channel: Channel, bytes: &[u8], expected: Expected) {
    plan.add(Command::read(channel.number(), bytes), expected);
}
