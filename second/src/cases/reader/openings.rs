//! The reader of the start, openings and what a refused one leaves, and memory that is too short.

use super::{behind, hear, open, show};
use crate::channel::Channel;
use crate::frame::LARGEST_FRAME;
use crate::plan::{Expected, Plan};
use crate::reader_numbers::ReaderNumbers;
use crate::refusal::Refusal;
use crate::samples;
use crate::script::{Command, Listen, MEMORY};

pub fn add(plan: &mut Plan) {
    add_zeros(plan);
    for channel in Channel::BOTH {
        open(plan, channel);
        show(plan, &ReaderNumbers { channel, counter: 1, ..ReaderNumbers::default() });
        add_foreign_channels(plan, channel);
        add_rooms(plan, channel);
    }
}

fn listen_in(room: usize, samples: &[u8]) -> Command {
    Command::Listen(Listen { room, runs: samples::runs(samples) })
}

/// No piece is taken, whatever memory is lent, and the reader stays as it is.
fn add_zeros(plan: &mut Plan) {
    let zeros = ReaderNumbers::default();
    show(plan, &zeros);
    for (room, samples) in [(MEMORY, &[][..]), (MEMORY, &[1, 1, 1, 1, 1, 0]), (LARGEST_FRAME - 1, &[]), (0, &[1])] {
        plan.add(listen_in(room, samples), Expected::line("heard 23 0 0 0"));
        show(plan, &zeros);
    }
}

/// While a reader is held that has heard something: of that nothing stays.
fn add_foreign_channels(plan: &mut Plan, channel: Channel) {
    let stream = samples::short_stream(channel);
    for foreign in [2, 3, 4, 127, 128, 254, 255] {
        open(plan, channel);
        hear(plan, &stream[..300], &[]);
        plan.add(Command::OpenReader(foreign), Expected::line("reader 1"));
        plan.add(Command::listen(&[]), Expected::Refused(Refusal::NotSound));
        show(plan, &ReaderNumbers::default());
    }
    // A refusal for the state comes before one for the memory.
    plan.add(listen_in(0, &[1]), Expected::Refused(Refusal::NotSound));
    show(plan, &ReaderNumbers::default());
}

/// In the middle of a frame, which goes on as soon as there is memory enough.
fn add_rooms(plan: &mut Plan, channel: Channel) {
    let stream = samples::short_stream(channel);
    open(plan, channel);
    for (place, room) in [LARGEST_FRAME, LARGEST_FRAME + 1, MEMORY - 1, MEMORY].into_iter().enumerate() {
        let heard = 194 * place;
        for short in [0, 1, 8, LARGEST_FRAME - 1] {
            plan.add(listen_in(short, &stream[heard..heard + 9]), Expected::line("heard 36 0 0 0"));
            plan.add(listen_in(short, &[]), Expected::line("heard 36 0 0 0"));
        }
        show(plan, &behind(channel, &stream[..heard]));
        let told = if place == 3 { vec![0] } else { vec![] };
        plan.add(listen_in(room, &stream[heard..heard + 194]), Expected::Told(told));
    }
    show(plan, &behind(channel, &stream));
}
