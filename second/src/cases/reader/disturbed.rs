//! A short stream with single samples changed, at every place, and with two of them changed side by side.

use super::{behind, hear, open, open_and_hear, put};
use crate::channel::Channel;
use crate::plan::Plan;
use crate::random::Random;
use crate::samples;

/// A reader is put so many samples before the change, as it would have come there: what lies farther back needn't be
/// played again.
const BEFORE: usize = 16;

/// The idle samples in front. A change in them is heard in a shorter way, and the bytes of the frame lie behind them.
const IDLE: usize = 88;

/// Pairs are changed at every so many places.
const STEP: usize = 47;

pub fn add(plan: &mut Plan, random: &mut Random) {
    for channel in Channel::BOTH {
        let stream = samples::short_stream(channel);
        // What of the frame lies before a change is in the memory already.
        open(plan, channel);
        hear(plan, &stream, &[0]);
        for place in (IDLE..stream.len()).filter(|place| place % 2 == usize::from(channel.number())) {
            add_single(plan, random, channel, &stream, place);
        }
    }
    for place in 0..samples::false_start().len() {
        add_false_start(plan, random, Channel::BOTH[place % 2], place);
    }
    let stream = samples::short_stream(Channel::A);
    for apart in [4, 3] {
        for place in (0..stream.len() - apart).step_by(STEP) {
            add_pair(plan, random, &stream, place, apart);
        }
    }
}

/// Low for high, and some high byte for low.
fn change(random: &mut Random, samples: &mut [u8], place: usize) {
    samples[place] = if samples[place] == 0 { random.pick(&[1, 2, 127, 128, 255]) } else { 0 };
}

/// 002, section 3.2.2: one sample never makes a difference for the frame.
fn add_single(plan: &mut Plan, random: &mut Random, channel: Channel, stream: &[u8], place: usize) {
    let from = place.saturating_sub(BEFORE);
    let mut changed = stream.to_vec();
    change(random, &mut changed, place);
    put(plan, &behind(channel, &stream[..from]));
    hear(plan, &changed[from..], &[0]);
}

/// The same of a start that comes to nothing.
fn add_false_start(plan: &mut Plan, random: &mut Random, channel: Channel, place: usize) {
    let mut changed = samples::false_start();
    change(random, &mut changed, place);
    open_and_hear(plan, channel, &changed, &[31]);
}

/// Two of five are no majority.
fn add_pair(plan: &mut Plan, random: &mut Random, stream: &[u8], place: usize, apart: usize) {
    let from = place.saturating_sub(BEFORE).min(IDLE);
    let mut changed = stream.to_vec();
    change(random, &mut changed, place);
    change(random, &mut changed, place + apart);
    put(plan, &behind(Channel::A, &stream[..from]));
    hear(plan, &changed[from..], &[0]);
}
