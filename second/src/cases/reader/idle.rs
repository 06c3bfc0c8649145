//! Where exactly a frame begins to be heard: high samples before the first, behind another and behind an error.

use super::open_and_hear;
use crate::channel::Channel;
use crate::listed_frames::SHORT;
use crate::plan::Plan;
use crate::samples::{self, HIGH};

pub fn add(plan: &mut Plan) {
    for samples in [0, 4, 5, 40].into_iter().chain(83..=89) {
        add_first(plan, Channel::A, samples);
    }
    for samples in (70..=74).chain([64, 80, 88]) {
        add_behind_frame(plan, Channel::A, samples);
    }
    for samples in (78..=81).chain([72, 88, 96]) {
        add_behind_error(plan, Channel::A, samples);
    }
    (1..=6).for_each(|low| add_dip(plan, Channel::A, low));
    // The same rule holds on the other channel, so that the borders are enough.
    [84, 85].into_iter().for_each(|samples| add_first(plan, Channel::B, samples));
    [71, 72].into_iter().for_each(|samples| add_behind_frame(plan, Channel::B, samples));
    [79, 80].into_iter().for_each(|samples| add_behind_error(plan, Channel::B, samples));
    [4, 5].into_iter().for_each(|low| add_dip(plan, Channel::B, low));
}

fn frame(channel: Channel) -> Vec<u8> {
    samples::of_frame(3, &SHORT.bytes(channel))
}

/// The timer begins with the fifth sample, and the first low bit is strobed with the seventh of its own: 85 high samples
/// before it are enough.
fn add_first(plan: &mut Plan, channel: Channel, before: usize) {
    let stream = [vec![HIGH; before], frame(channel)].concat();
    let told = if before >= 85 { vec![0] } else { vec![] };
    open_and_hear(plan, channel, &stream, &told);
}

/// The timer begins behind the low bit of the end: with the high bit 72 more are enough, nine bits.
fn add_behind_frame(plan: &mut Plan, channel: Channel, between: usize) {
    let stream = [samples::short_stream(channel), vec![HIGH; between], frame(channel)].concat();
    let told = if between >= 72 { vec![0, 0] } else { vec![0] };
    open_and_hear(plan, channel, &stream, &told);
}

/// The end's second bit is low, so that there are ten bits to wait behind it.
fn add_behind_error(plan: &mut Plan, channel: Channel, between: usize) {
    let mut wrong = samples::short_stream(channel);
    let second = wrong.len() - 8;
    wrong[second..].fill(0);
    let stream = [wrong, vec![HIGH; between], frame(channel)].concat();
    let told = if between >= 80 { vec![0, 35, 0] } else { vec![0, 35] };
    open_and_hear(plan, channel, &stream, &told);
}

/// Low samples in the middle of the idle bits: up to four make no low bit, and five begin to wait anew.
fn add_dip(plan: &mut Plan, channel: Channel, low: usize) {
    let dip = [vec![HIGH; 40], vec![0; low], vec![HIGH; 48]].concat();
    let told = if low <= 4 { vec![0] } else { vec![] };
    open_and_hear(plan, channel, &[dip, frame(channel)].concat(), &told);
}
