//! Frames of every size, on the two channels in turn and with every start length; the largest on both.

use super::{line_of, open};
use crate::channel::Channel;
use crate::draft::Draft;
use crate::frame::MOST_WORDS;
use crate::plan::{Expected, Plan};
use crate::random::Random;
use crate::samples;
use crate::script::Command;

pub fn add(plan: &mut Plan, random: &mut Random) {
    for (place, words) in (0..=MOST_WORDS).chain([MOST_WORDS]).enumerate() {
        let channel = Channel::BOTH[place % 2];
        let draft = Draft::fair(random, channel, words);
        let stream = samples::behind_idle(words % 15 + 1, &draft.bytes());
        let line = line_of(stream.len() - 9, &draft);
        open(plan, channel);
        plan.add(Command::listen(&stream), Expected::Line(format!("{line}\nheard 0 9 0 0")));
    }
}
