//! Frame checksums: sizes, channels and plain patterns.

use crate::channel::Channel;
use crate::draft::{Draft, FOREIGN_CHANNELS};
use crate::frame::{LARGEST_FRAME, MOST_WORDS, TRAILER_BYTES};
use crate::plan::{Expected, Plan};
use crate::random::Random;
use crate::refusal::Refusal;
use crate::script::{Command, LIMIT};

const RANDOM_SIZES: usize = 120;

pub fn add(plan: &mut Plan, random: &mut Random) {
    add_foreign_channels(plan, random);
    for channel in Channel::BOTH {
        add_empty(plan, channel);
        add_patterns(plan, channel);
        add_sizes(plan, random, channel);
        add_trailers(plan, random, channel);
    }
}

fn add_foreign_channels(plan: &mut Plan, random: &mut Random) {
    for channel in 2..=255 {
        plan.add(Command::checksum(channel, &random.bytes(5)), Expected::Refused(Refusal::Channel));
    }
    for channel in FOREIGN_CHANNELS {
        for size in [0, 1, LARGEST_FRAME, LIMIT] {
            plan.add(Command::checksum(channel, &random.bytes(size)), Expected::Refused(Refusal::Channel));
        }
    }
}

/// Nothing to divide leaves the start value.
fn add_empty(plan: &mut Plan, channel: Channel) {
    let start = channel.start_value();
    plan.add(Command::checksum(channel.number(), &[]), Expected::Line(format!("checksum 0 {start}")));
}

fn add_patterns(plan: &mut Plan, channel: Channel) {
    for value in 0..=255 {
        plan.add(Command::checksum(channel.number(), &[value]), Expected::Accepted);
    }
    for size in [2, 3, 4, LARGEST_FRAME - TRAILER_BYTES, LIMIT] {
        for value in [0x00, 0xFF] {
            plan.add(Command::checksum(channel.number(), &vec![value; size]), Expected::Accepted);
        }
    }
}

fn add_sizes(plan: &mut Plan, random: &mut Random, channel: Channel) {
    let sizes = (0..=40).chain([255, 256, 257, LIMIT - 1, LIMIT]);
    let chosen: Vec<usize> = (0..RANDOM_SIZES).map(|_| random.between(0, LIMIT)).collect();
    for size in sizes.chain(chosen) {
        plan.add(Command::checksum(channel.number(), &random.bytes(size)), Expected::Accepted);
    }
}

/// Header and payload of a good frame give its trailer; the whole frame leaves nothing over.
fn add_trailers(plan: &mut Plan, random: &mut Random, channel: Channel) {
    for words in [0, 1, 2, 16, MOST_WORDS] {
        let frame = Draft::fair(random, channel, words).bytes();
        let (body, trailer) = frame.split_at(frame.len() - TRAILER_BYTES);
        let value = trailer.iter().fold(0, |value, byte| value * 256 + u32::from(*byte));
        plan.add(Command::checksum(channel.number(), body), Expected::Line(format!("checksum 0 {value}")));
        plan.add(Command::checksum(channel.number(), &frame), Expected::Line("checksum 0 0".to_string()));
    }
}
