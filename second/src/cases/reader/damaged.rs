//! Streams with bits, runs and stretches changed at random, and a good frame behind each.

use super::open;
use crate::channel::Channel;
use crate::draft::Draft;
use crate::plan::{Expected, Plan};
use crate::random::Random;
use crate::samples;
use crate::script::Command;
use crate::streams;

const STREAMS: usize = 24;

/// The reader is shown behind every so many of them.
const SHOWN: usize = 4;

pub fn add(plan: &mut Plan, random: &mut Random) {
    for place in 0..STREAMS {
        let channel = Channel::BOTH[place % 2];
        let words = (place % 3) as u8;
        let first = Draft::fair(random, channel, words);
        let start = random.between(1, 15) as u8;
        let stream = streams::damaged(random, &samples::behind_idle(start, &first.bytes()));
        let behind = samples::behind_idle(3, &Draft::fair(random, channel, 0).bytes());
        open(plan, channel);
        plan.add(Command::listen(&[stream, behind].concat()), Expected::Anything);
        if place % SHOWN == 0 {
            plan.add(Command::ShowReader, Expected::Anything);
        }
    }
}
