//! Starts, frame starts and byte starts of every length in samples around the borders of the bits that they make.

use super::open_and_hear;
use crate::channel::Channel;
use crate::listed_frames::SHORT;
use crate::plan::{Expected, Plan};
use crate::samples::{self, HIGH, IDLE_BITS, LOW};
use crate::script::Command;
use crate::wire;

/// Bits before the frame start, before the first byte and before the second byte of a stream with start length 3.
const FRAME_START: usize = 3;
const FIRST_LOW: usize = 5;
const SECOND_BYTE: usize = 14;

pub fn add(plan: &mut Plan) {
    let starts = (1..=6).chain([12, 13, 20, 21]).chain(132..=142).chain([144, 200]);
    starts.for_each(|low| add_start(plan, Channel::A, low));
    let frame_starts = (1..=6).chain(11..=17).chain(20..=22).chain(27..=30);
    frame_starts.for_each(|high| add_frame_start(plan, Channel::A, high));
    (3..=14).for_each(|high| add_byte_start(plan, Channel::A, high));
    // The same rule holds on the other channel, so that the borders are enough.
    [4, 5, 12, 13, 132, 133, 140, 141].into_iter().for_each(|low| add_start(plan, Channel::B, low));
    [4, 5, 12, 13, 20, 21, 28, 29].into_iter().for_each(|high| add_frame_start(plan, Channel::B, high));
    [4, 5, 12, 13].into_iter().for_each(|high| add_byte_start(plan, Channel::B, high));
}

fn bits(channel: Channel) -> Vec<bool> {
    wire::stream(3, &SHORT.bytes(channel))
}

/// Idle bits, and in the middle of the bits that follow a stretch of other length.
fn stretched(bits: &[bool], from: usize, to: usize, sample: u8, length: usize) -> Vec<u8> {
    let (before, behind) = (samples::of_bits(&bits[..from]), samples::of_bits(&bits[to..]));
    [samples::idle(IDLE_BITS), before, vec![sample; length], behind].concat()
}

/// A low bit is strobed where five samples of it have come, so that 133 to 140 are 17 bits. Fewer than five are none, and
/// what is then taken for a start has no rule of its own.
fn add_start(plan: &mut Plan, channel: Channel, low: usize) {
    let stream = stretched(&bits(channel), 0, FRAME_START, LOW, low);
    match low {
        0..=4 => add_anything(plan, channel, &stream),
        5..=140 => open_and_hear(plan, channel, &stream, &[0]),
        _ => open_and_hear(plan, channel, &stream, &[30]),
    }
}

/// The same of high bits: 5 to 12 samples are one, 13 to 20 two, 21 to 28 three.
fn add_frame_start(plan: &mut Plan, channel: Channel, high: usize) {
    let stream = stretched(&bits(channel), FRAME_START, FIRST_LOW, HIGH, high);
    match high {
        0..=4 => add_anything(plan, channel, &stream),
        5..=28 => open_and_hear(plan, channel, &stream, &[0]),
        _ => open_and_hear(plan, channel, &stream, &[31]),
    }
}

/// The high bit of the second byte's start, behind a low one: the edge behind it may come early or late by four.
fn add_byte_start(plan: &mut Plan, channel: Channel, high: usize) {
    let stream = stretched(&bits(channel), SECOND_BYTE, SECOND_BYTE + 1, HIGH, high);
    match high {
        0..=4 => open_and_hear(plan, channel, &stream, &[32]),
        5..=12 => open_and_hear(plan, channel, &stream, &[0]),
        _ => open_and_hear(plan, channel, &stream, &[33]),
    }
}

fn add_anything(plan: &mut Plan, channel: Channel, samples: &[u8]) {
    plan.add(Command::OpenReader(channel.number()), Expected::line("reader 0"));
    plan.add(Command::listen(samples), Expected::Anything);
}
