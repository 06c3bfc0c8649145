//! 02 C-16: null frames with a byte other than 0 in their payload, which are not written, and are read as ever.

use std::iter;

use super::bench::add_accepted;
use super::encoding::exact;
use super::listed_frames::hex;
use super::round_trips::add_rewritten;
use super::writing::{accepted_if, by_flags};
use crate::channel::Channel;
use crate::draft::{fair_cycle, fair_id, Draft, FOREIGN_CHANNELS};
use crate::faults::{fair_start, fair_write, WRONG_CYCLES, WRONG_IDS};
use crate::frame::{Indicators, LARGEST_PAYLOAD, NULL_FRAME_BIT, SMALLEST_FRAME};
use crate::history::{play_opened, Happening};
use crate::listed_frames::NULL_FRAMES;
use crate::payloads::with_byte;
use crate::plan::{Expected, Plan};
use crate::random::Random;
use crate::refusal::Refusal;
use crate::scene::{Kind, Scene};
use crate::script::{Command, Write, LIMIT};
use crate::settings::STATIC_WORDS;

/// The payloads that have a byte other than 0 at each place, one at a time.
pub const SIZES: [usize; 3] = [2, 4, LARGEST_PAYLOAD];

/// Such bytes: each bit alone, and all of them.
pub const BYTES: [u8; 9] = [1, 2, 4, 8, 16, 32, 64, 128, 255];

/// Bytes other than 0 that cancel out where they are added up or taken against each other bit by bit.
pub const CANCELLING: [&[u8]; 5] = [&[1, 1], &[128, 128], &[1, 255], &[85, 0, 0, 85], &[64, 64, 64, 64]];

/// All flags with which a null frame of zeros is written.
pub const NULL_FLAGS: [u8; 6] = [0b00000, 0b00010, 0b01000, 0b01010, 0b11000, 0b11010];

/// Sizes that no payload has; the room for the last one is the largest of a script.
pub const WRONG_SIZES: [usize; 6] =
    [1, 3, LARGEST_PAYLOAD - 1, LARGEST_PAYLOAD + 1, LARGEST_PAYLOAD + 2, LIMIT - SMALLEST_FRAME];

pub fn add(plan: &mut Plan, random: &mut Random) {
    for channel in Channel::BOTH {
        add_listed(plan, channel);
        for size in [2, 4] {
            add_short_payloads(plan, random, channel, size);
        }
        CANCELLING.iter().for_each(|payload| add_not_zeros(plan, random, channel, payload));
        add_flags(plan, random, channel);
        add_zeros(plan, random, channel);
        add_beside_others(plan, random, channel);
        for size in SIZES {
            add_read(plan, random, channel, size);
        }
    }
    add_long_payloads(plan, random);
}

/// Null frames that are known whole: each of them is read, and those of zeros are written.
fn add_listed(plan: &mut Plan, channel: Channel) {
    let not_written = "write 26 0 a5a5a5a5a5a5a5a5a5a5a5a5".to_string();
    let written = NULL_FRAMES[1..].iter().map(|frame| format!("write 0 12 {}", hex(&frame.bytes(channel))));
    for (frame, line) in NULL_FRAMES.iter().zip(iter::once(not_written).chain(written)) {
        let bytes = frame.bytes(channel);
        let read = format!("read 0 {} {} 0 0", frame.fields, hex(frame.payload));
        plan.add(Command::read(channel.number(), &bytes), Expected::Line(read));
        plan.add(Command::Write(frame.write(channel)), Expected::Line(line));
        plan.add(Command::bench(channel.number(), &bytes), Expected::line(frame.bench_line));
    }
}

/// A write in which nothing but the payload can be wrong, in a room for the frame or for a little more.
fn write_with(random: &mut Random, channel: Channel, payload: Vec<u8>) -> Write {
    let fair = fair_write(random, channel, payload.len());
    let room = fair.room + random.pick(&[0, 1, 6]);
    Write { payload, room, ..fair }
}

/// A null frame with this payload, and another one, which alone is written.
fn add_not_zeros(plan: &mut Plan, random: &mut Random, channel: Channel, payload: &[u8]) {
    let write = write_with(random, channel, payload.to_vec());
    let (null, other) = (write.flags & !NULL_FRAME_BIT, write.flags | NULL_FRAME_BIT);
    let refused = Expected::Refused(Refusal::NullFramePayload);
    plan.add(Command::Write(Write { flags: null, ..write.clone() }), refused);
    plan.add(Command::Write(Write { flags: other, ..write }), Expected::Accepted);
}

fn add_short_payloads(plan: &mut Plan, random: &mut Random, channel: Channel, size: usize) {
    for place in 0..size {
        for byte in BYTES {
            add_not_zeros(plan, random, channel, &with_byte(size, place, byte));
        }
    }
}

/// On one channel after the other; those that are read have the ends on both.
fn add_long_payloads(plan: &mut Plan, random: &mut Random) {
    for place in 0..LARGEST_PAYLOAD {
        let (channel, byte) = (Channel::BOTH[place % 2], BYTES[place % BYTES.len()]);
        add_not_zeros(plan, random, channel, &with_byte(LARGEST_PAYLOAD, place, byte));
    }
}

/// Of all bits but the null frame bit only those count that are refused earlier.
fn add_flags(plan: &mut Plan, random: &mut Random, channel: Channel) {
    for flags in 0..32 {
        let payload = with_byte(2, random.below(2), random.pick(&BYTES));
        let write = Write { flags, ..write_with(random, channel, payload) };
        let expected = match by_flags(flags) {
            Expected::Accepted => accepted_if(flags & NULL_FRAME_BIT != 0, Refusal::NullFramePayload),
            earlier => earlier,
        };
        plan.add(Command::Write(write), expected);
    }
}

/// Null frames that are read, and written again; a payload without a byte has none other than 0.
fn add_zeros(plan: &mut Plan, random: &mut Random, channel: Channel) {
    for size in [0].into_iter().chain(SIZES) {
        for flags in NULL_FLAGS {
            let (id, cycle) = (fair_id(random), fair_cycle(random));
            add_rewritten(plan, &Draft::plain(channel, flags, id, (size / 2) as u8, cycle));
        }
    }
}

/// Each other cause, beside a cause for 26, beside a null frame's zeros, and beside the same byte in another frame.
fn add_beside_others(plan: &mut Plan, random: &mut Random, channel: Channel) {
    let byte = random.pick(&BYTES);
    // 02 C-16: tested after 12 and before 13.
    let cases =
        [(0, byte, Refusal::NullFramePayload), (0, 0, Refusal::Output), (NULL_FRAME_BIT, byte, Refusal::Output)];
    for (flags, byte, before_output) in cases {
        let write = Write { flags, ..write_with(random, channel, vec![byte, 0]) };
        for (refusal, write) in with_other_causes(&write) {
            let first = if refusal == Refusal::Output { before_output } else { refusal };
            plan.add(Command::Write(write), Expected::Refused(first));
        }
    }
}

/// The same write with one more cause, for each of the other refusals.
fn with_other_causes(write: &Write) -> Vec<(Refusal, Write)> {
    let same = || write.clone();
    let [reserved, startup] = [0b00001, 0b10000].map(|bit| Write { flags: write.flags | bit, ..same() });
    let mut all = vec![(Refusal::ReservedToWrite, reserved), (Refusal::StartupWithoutSync, startup)];
    all.extend(FOREIGN_CHANNELS.map(|channel| (Refusal::Channel, Write { channel, ..same() })));
    all.extend(WRONG_IDS.map(|id| (Refusal::IdGiven, Write { id, ..same() })));
    all.extend(WRONG_SIZES.map(|size| (Refusal::PayloadToWrite, resized(write, size))));
    all.extend(WRONG_CYCLES.map(|cycle| (Refusal::Cycle, Write { cycle, ..same() })));
    let size = SMALLEST_FRAME + write.payload.len();
    all.extend([0, SMALLEST_FRAME, size - 1].map(|room| (Refusal::Output, Write { room, ..same() })));
    all
}

/// Zeros behind the payload, or only the front of it.
fn resized(write: &Write, size: usize) -> Write {
    let mut payload = write.payload.clone();
    payload.resize(size, 0);
    Write { payload, room: SMALLEST_FRAME + size, ..write.clone() }
}

/// Everything that reads frames takes such a null frame. What was read of it is not written again.
fn add_read(plan: &mut Plan, random: &mut Random, channel: Channel, size: usize) {
    for place in [0, size - 1] {
        let byte = random.pick(&BYTES);
        let fair = Draft::fair(random, channel, (size / 2) as u8);
        let with = |reserved, null_frame| Draft {
            indicators: Indicators { reserved, null_frame, ..fair.indicators },
            payload: with_byte(size, place, byte),
            ..fair.clone()
        };
        let null = with(false, false);
        for draft in [null.clone(), with(false, true), with(true, false), with(true, true)] {
            add_rewritten(plan, &draft);
        }
        add_accepted(plan, &null);
        plan.add(Command::Encode(exact(&null, fair_start(random))), Expected::Accepted);
        add_arrival(plan, random, &null);
    }
}

/// The frame is good in a static slot of its words.
fn add_arrival(plan: &mut Plan, random: &mut Random, null: &Draft) {
    let fair = Scene::fair(random, null.channel, Kind::Static);
    let scene = Scene { settings: fair.settings.with_field(STATIC_WORDS, null.words.into()), ..fair };
    let arrived = Draft { id: scene.slot, cycle: scene.cycle, ..null.clone() };
    play_opened(plan, &scene, &[Happening::Good(arrived)]);
}
