//! Streams without a fault: every start length, frames that are known, several in one piece, and levels of every look.

use super::{line_of, listed, open, open_and_hear};
use crate::channel::Channel;
use crate::draft::Draft;
use crate::listed_frames::{NOT_ZEROS, SHORT, STARTUP};
use crate::plan::{Expected, Plan};
use crate::random::Random;
use crate::samples::{self, IDLE_BITS};
use crate::script::{Command, Listen, Run, MEMORY};
use crate::wire::START_LENGTHS;

/// Bytes for a high sample: the lowest and the highest, and some whose lowest or highest bit is 0.
const HIGH_SAMPLES: [u8; 5] = [255, 128, 2, 127, 1];

pub fn add(plan: &mut Plan, random: &mut Random) {
    for start in START_LENGTHS {
        let channel = Channel::BOTH[usize::from(start % 2)];
        let draft = Draft::fair(random, channel, start % 3);
        add_frames(plan, channel, &[(IDLE_BITS, start, draft)]);
    }
    for channel in Channel::BOTH {
        // 002, section 3.2.6: up to two low bits more than the longest start.
        for start in [16, 17] {
            add_frames(plan, channel, &[(IDLE_BITS, start, listed(&SHORT, channel))]);
        }
        add_frames(plan, channel, &[(12, 3, listed(&STARTUP, channel))]);
        add_frames(plan, channel, &[(20, 15, listed(&SHORT, channel))]);
        // 02 C-16 is about writing: what the wire brings is a frame as ever.
        add_frames(plan, channel, &[(IDLE_BITS, 3, listed(&NOT_ZEROS, channel))]);
        add_other_channel(plan, channel);
        add_high_samples(plan, channel);
        add_runs(plan, random, channel);
    }
    for (channel, idle) in [(Channel::A, IDLE_BITS), (Channel::A, 9), (Channel::B, 10), (Channel::B, 9)] {
        add_several(plan, random, channel, idle);
    }
}

/// Frames in one piece, each behind so many idle bits and with its start length, and a line for each of them.
fn add_frames(plan: &mut Plan, channel: Channel, frames: &[(usize, u8, Draft)]) {
    let mut piece = Vec::new();
    let mut lines = Vec::new();
    let mut taken = 0;
    for (idle, start, draft) in frames {
        piece.extend(samples::idle(*idle));
        piece.extend(samples::of_frame(*start, &draft.bytes()));
        // The strobe of the end's low bit has one sample more of it behind, and the high bit.
        let given = piece.len() - 9;
        lines.push(line_of(given - taken, draft));
        taken = given;
    }
    lines.push("heard 0 9 0 0".to_string());
    open(plan, channel);
    plan.add(Command::listen(&piece), Expected::Line(lines.join("\n")));
}

/// The first one is heard behind eleven idle bits, the others behind as many as asked for.
fn add_several(plan: &mut Plan, random: &mut Random, channel: Channel, idle: usize) {
    let mut frames = vec![(IDLE_BITS, 3, listed(&SHORT, channel))];
    for start in [1, 5] {
        frames.push((idle, start, Draft::fair(random, channel, 0)));
    }
    add_frames(plan, channel, &frames);
}

/// Its frame checksum is that of the other channel.
fn add_other_channel(plan: &mut Plan, channel: Channel) {
    for frame in [SHORT, STARTUP] {
        let stream = samples::behind_idle(4, &frame.bytes(channel.other()));
        open_and_hear(plan, channel, &stream, &[8]);
    }
}

fn add_high_samples(plan: &mut Plan, channel: Channel) {
    let stream = samples::short_stream(channel);
    let line = format!("{}\nheard 0 9 0 0", line_of(767, &listed(&SHORT, channel)));
    for high in HIGH_SAMPLES {
        let other: Vec<u8> = stream.iter().map(|sample| sample * high).collect();
        open(plan, channel);
        plan.add(Command::listen(&other), Expected::line(&line));
    }
    let mixed: Vec<u8> = stream.iter().zip(HIGH_SAMPLES.iter().cycle()).map(|(sample, high)| sample * high).collect();
    open(plan, channel);
    plan.add(Command::listen(&mixed), Expected::line(&line));
}

/// However the piece is made of runs, none of them or some without a sample.
fn add_runs(plan: &mut Plan, random: &mut Random, channel: Channel) {
    let stream = samples::short_stream(channel);
    let line = format!("{}\nheard 0 9 0 0", line_of(767, &listed(&SHORT, channel)));
    let singles: Vec<Run> = stream.iter().map(|sample| Run { sample: *sample, times: 1 }).collect();
    let none = |random: &mut Random| Run { sample: random.below(256) as u8, times: 0 };
    let with_none = samples::runs(&stream).into_iter().flat_map(|run| [none(random), run]).collect();
    for runs in [singles, with_none] {
        open(plan, channel);
        plan.add(Command::Listen(Listen { room: MEMORY, runs }), Expected::line(&line));
    }
}
