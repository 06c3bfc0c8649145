//! Every error that a reader tells, followed by idle bits and a frame: enough of them, and one too few.

use super::{behind, open_and_hear, show};
use crate::channel::Channel;
use crate::draft::Draft;
use crate::frame::Indicators;
use crate::listed_frames::SHORT;
use crate::plan::Plan;
use crate::samples::{self, IDLE_BITS};
use crate::wire;

/// With the start length of three of all streams here: where the second byte's start begins, and where the end does.
const START: u8 = 3;
const SECOND_BYTE: usize = 14;
const END: usize = 84;

pub fn add(plan: &mut Plan) {
    for channel in Channel::BOTH {
        for (place, (told, bits)) in cases(channel).into_iter().enumerate() {
            add_error(plan, channel, &told, &bits, place % 2 == usize::from(channel.number()));
        }
    }
}

/// The bits of the short frame with those of some places turned over.
fn turned(channel: Channel, places: &[usize]) -> Vec<bool> {
    let mut bits = wire::stream(START, &SHORT.bytes(channel));
    places.iter().for_each(|place| bits[*place] = !bits[*place]);
    bits
}

/// What they tell, and the bits.
fn cases(channel: Channel) -> Vec<(Vec<u8>, Vec<bool>)> {
    let frame = SHORT.bytes(channel);
    let good = Draft::plain(channel, SHORT.flags, SHORT.id, 0, SHORT.cycle);
    let startup = Indicators { startup: true, ..good.indicators };
    let of_draft = |draft: Draft| wire::stream(START, &draft.bytes());
    let mut four_high = wire::stream(START, &frame);
    four_high.splice(3..3, [true, true]);
    vec![
        (vec![30], wire::stream(18, &frame)),
        (vec![31], four_high),
        (vec![32], turned(channel, &[SECOND_BYTE])),
        (vec![32], turned(channel, &[SECOND_BYTE, SECOND_BYTE + 1])),
        (vec![33], turned(channel, &[SECOND_BYTE + 1])),
        // The last byte's start, behind which there is only the end.
        (vec![32], turned(channel, &[END - 10])),
        (vec![33], turned(channel, &[END - 9])),
        (vec![34], turned(channel, &[END])),
        (vec![34], turned(channel, &[END, END + 1])),
        (vec![0, 35], turned(channel, &[END + 1])),
        (vec![4], of_draft(Draft { header_checksum_change: 1, ..good.clone() })),
        (vec![4], of_draft(Draft { header_checksum_change: 0x400, ..good.clone() })),
        (vec![6], of_draft(Draft { id: 0, ..good.clone() })),
        (vec![7], of_draft(Draft { indicators: startup, ..good.clone() })),
        (vec![8], of_draft(Draft { frame_checksum_change: 1, ..good.clone() })),
        // What the reader can't know before the end doesn't count where a byte start or the end is wrong.
        (vec![33], with_id_zero(&good, SECOND_BYTE + 1)),
        (vec![34], with_id_zero(&good, END)),
        // The header checksum comes before a wrong start of the next byte.
        (vec![4], with_wrong_header(&good, SECOND_BYTE + 40)),
    ]
}

fn with_id_zero(good: &Draft, place: usize) -> Vec<bool> {
    let mut bits = wire::stream(START, &Draft { id: 0, ..good.clone() }.bytes());
    bits[place] = !bits[place];
    bits
}

fn with_wrong_header(good: &Draft, place: usize) -> Vec<bool> {
    let mut bits = wire::stream(START, &Draft { header_checksum_change: 2, ..good.clone() }.bytes());
    bits[place] = !bits[place];
    bits
}

/// The low bit that is strobed last lies so many bits before the end.
fn high_bits_at_end(bits: &[bool]) -> usize {
    bits.iter().rev().take_while(|bit| **bit).count()
}

/// Ten high bits behind the last low one are enough for a frame behind the error, and nine are not.
fn add_error(plan: &mut Plan, channel: Channel, told: &[u8], bits: &[bool], too_few: bool) {
    let there = high_bits_at_end(bits);
    let wrong = [samples::idle(IDLE_BITS), samples::of_bits(bits)].concat();
    let frame = samples::of_frame(START, &SHORT.bytes(channel));
    let good = [told, &[0]].concat();
    let (high_bits, told) = if too_few { (9, told) } else { (10, &good[..]) };
    let stream = [&wrong[..], &samples::idle(high_bits - there), &frame].concat();
    open_and_hear(plan, channel, &stream, told);
    show(plan, &behind(channel, &stream));
}
