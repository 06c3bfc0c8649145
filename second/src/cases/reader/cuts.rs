//! A short stream in two pieces, cut at every place, and sample by sample: the same frame and the same reader at the end.

use super::{hear, open, show};
use crate::channel::Channel;
use crate::plan::Plan;
use crate::reader_numbers::ReaderNumbers;
use crate::samples;

/// Samples up to the one that gives the frame.
const GIVEN: usize = 767;

pub fn add(plan: &mut Plan) {
    let stream = samples::short_stream(Channel::A);
    for cut in 0..=stream.len() {
        add_cut(plan, Channel::BOTH[cut % 2], cut);
    }
    for channel in Channel::BOTH {
        open(plan, channel);
        hear(plan, &samples::short_stream(channel), &[0]);
        show(plan, &at_end(channel));
    }
    open(plan, Channel::B);
    for (place, sample) in samples::short_stream(Channel::B).iter().enumerate() {
        let told = if place + 1 == GIVEN { vec![0] } else { vec![] };
        hear(plan, &[*sample], &told);
    }
    show(plan, &at_end(Channel::B));
}

/// One sample behind the strobe of the end's high bit.
fn at_end(channel: Channel) -> ReaderNumbers {
    let end = ReaderNumbers { samples: 15, seen: 4, voted: true, counter: 7, ..ReaderNumbers::default() };
    ReaderNumbers { channel, realigns: true, timer: 9, ..end }
}

fn add_cut(plan: &mut Plan, channel: Channel, cut: usize) {
    let stream = samples::short_stream(channel);
    let (first, second) = stream.split_at(cut);
    let (told, then): (&[u8], &[u8]) = if cut >= GIVEN { (&[0], &[]) } else { (&[], &[0]) };
    open(plan, channel);
    hear(plan, first, told);
    hear(plan, second, then);
    show(plan, &at_end(channel));
}
