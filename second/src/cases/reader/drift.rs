//! Clocks that drift: bits of seven or nine samples, alone, some in a row, and throughout a stream.

use super::{open, open_and_hear};
use crate::channel::Channel;
use crate::listed_frames::SHORT;
use crate::plan::{Expected, Plan};
use crate::samples::{self, IDLE_BITS};
use crate::script::Command;
use crate::wire;

const START: u8 = 3;

/// The low bit of the second byte's start, at whose edge the bit clock is realigned.
const EDGE: usize = 15;

/// Single bits of other length stand at every so many places.
const STEP: usize = 13;

pub fn add(plan: &mut Plan) {
    for channel in Channel::BOTH {
        let bits = wire::stream(START, &SHORT.bytes(channel));
        for length in [7, 9] {
            for place in (0..bits.len()).step_by(STEP) {
                let stream = of_lengths(&bits, |bit| if bit == place { length } else { 8 });
                open_and_hear(plan, channel, &stream, &[0]);
            }
            for last in 2..=7 {
                add_anything(plan, channel, &bits, |bit| if (EDGE..EDGE + last).contains(&bit) { length } else { 8 });
            }
        }
        add_throughout(plan, channel, &bits);
    }
}

/// So many samples for each bit, by its place.
fn of_lengths(bits: &[bool], length: impl Fn(usize) -> usize) -> Vec<u8> {
    let of_bit = |(place, bit): (usize, &bool)| vec![u8::from(*bit); length(place)];
    let stream: Vec<u8> = bits.iter().enumerate().flat_map(of_bit).collect();
    [samples::idle(IDLE_BITS), stream].concat()
}

/// One bit in eight of other length is far less than what is allowed for, all of them are too much.
fn add_throughout(plan: &mut Plan, channel: Channel, bits: &[bool]) {
    for length in [7, 9] {
        for every in [8, 6] {
            let stream = of_lengths(bits, |bit| if bit % every == 0 { length } else { 8 });
            open_and_hear(plan, channel, &stream, &[0]);
        }
        for every in [1, 2, 3, 4] {
            add_anything(plan, channel, bits, |bit| if bit % every == 0 { length } else { 8 });
        }
    }
    let to_and_fro = of_lengths(bits, |bit| if bit % 2 == 0 { 7 } else { 9 });
    open_and_hear(plan, channel, &to_and_fro, &[0]);
}

fn add_anything(plan: &mut Plan, channel: Channel, bits: &[bool], length: impl Fn(usize) -> usize) {
    open(plan, channel);
    plan.add(Command::listen(&of_lengths(bits, length)), Expected::Anything);
}
