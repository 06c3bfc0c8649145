//! Good frames with single bits, pairs of bits and bursts turned over: none may be accepted.

use crate::bits;
use crate::channel::Channel;
use crate::draft::Draft;
use crate::frame::TRAILER_BYTES;
use crate::plan::{Expected, Plan};
use crate::random::Random;
use crate::script::Command;

/// As many bits as the frame checksum has.
const LONGEST_BURST: usize = 8 * TRAILER_BYTES;

pub fn add(plan: &mut Plan, random: &mut Random) {
    for (channel, words) in [(Channel::A, 1), (Channel::B, 2)] {
        let frame = Draft::fair(random, channel, words).bytes();
        plan.add(Command::read(channel.number(), &frame), Expected::Accepted);
        add_singles(plan, channel, &frame);
        add_pairs(plan, channel, &frame);
        add_bursts(plan, random, channel, &frame);
    }
}

fn add_damaged(plan: &mut Plan, channel: Channel, frame: &[u8], places: &[usize]) {
    let mut bytes = frame.to_vec();
    for place in places {
        bits::flip(&mut bytes, *place);
    }
    plan.add(Command::read(channel.number(), &bytes), Expected::Damaged(frame.to_vec()));
}

fn add_singles(plan: &mut Plan, channel: Channel, frame: &[u8]) {
    for place in 0..8 * frame.len() {
        add_damaged(plan, channel, frame, &[place]);
    }
}

fn add_pairs(plan: &mut Plan, channel: Channel, frame: &[u8]) {
    for second in 0..8 * frame.len() {
        for first in 0..second {
            add_damaged(plan, channel, frame, &[first, second]);
        }
    }
}

/// Every place for every length: once with all bits turned over, once with the inner ones at random.
fn add_bursts(plan: &mut Plan, random: &mut Random, channel: Channel, frame: &[u8]) {
    for length in 2..=LONGEST_BURST {
        for start in 0..=8 * frame.len() - length {
            let whole: Vec<usize> = (start..start + length).collect();
            add_damaged(plan, channel, frame, &whole);
            add_damaged(plan, channel, frame, &with_holes(random, &whole));
        }
    }
}

/// First and last bit stay in the burst, which keeps its length.
fn with_holes(random: &mut Random, whole: &[usize]) -> Vec<usize> {
    let ends = [whole[0], whole[whole.len() - 1]];
    whole.iter().copied().filter(|place| ends.contains(place) || random.coin()).collect()
}
