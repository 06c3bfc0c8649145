//! Encodings: every start length, every size and room, frames of every look, every refusal and all their coincidences.

use super::writing::accepted_if;
use crate::channel::Channel;
use crate::draft::Draft;
use crate::faults::{fair_start, faulty_encode, selections};
use crate::frame::{Indicators, LARGEST_FRAME, LARGEST_PAYLOAD, MOST_WORDS, SMALLEST_FRAME};
use crate::plan::{Expected, Plan};
use crate::random::Random;
use crate::refusal::{Refusal, ENCODE_ORDER};
use crate::script::{Command, Encode, OnChannel, LIMIT};
use crate::wire::START_LENGTHS;

pub fn add(plan: &mut Plan, random: &mut Random) {
    add_channels(plan, random);
    for channel in Channel::BOTH {
        add_starts(plan, random, channel);
        add_frame_sizes(plan, random, channel);
        add_wrong_sizes(plan, random, channel);
        add_flags(plan, random, channel);
        add_patterns(plan, random, channel);
        add_rooms(plan, random, channel);
        add_lengths_of_002(plan, random, channel);
    }
    add_selections(plan, random);
}

fn add_encode(plan: &mut Plan, encode: Encode, expected: Expected) {
    plan.add(Command::Encode(encode), expected);
}

/// A taken encoding of this frame, in a room for just its packed bits.
pub(super) fn exact(draft: &Draft, start: u8) -> Encode {
    Encode::exact(draft.on_channel(), start)
}

fn sized_encode(random: &mut Random, channel: Channel, words: u8) -> Encode {
    let draft = Draft::fair(random, channel, words);
    exact(&draft, fair_start(random))
}

fn add_channels(plan: &mut Plan, random: &mut Random) {
    for channel in 2..=255 {
        let encode = Encode { channel, ..sized_encode(random, Channel::B, 0) };
        add_encode(plan, encode, Expected::Refused(Refusal::Channel));
    }
}

/// All 256 start lengths, and those that are right in other rooms as well.
fn add_starts(plan: &mut Plan, random: &mut Random, channel: Channel) {
    for start in 0..=255 {
        let encode = exact(&Draft::fair(random, channel, 0), start);
        add_encode(plan, encode, accepted_if(START_LENGTHS.contains(&start), Refusal::StartLength));
    }
    for start in START_LENGTHS {
        let exact = exact(&Draft::fair(random, channel, 1), start);
        let rooms = [0, exact.room - 1, exact.room, exact.room + 1];
        add_rooms_of(plan, &exact, &rooms);
    }
}

fn add_rooms_of(plan: &mut Plan, exact: &Encode, rooms: &[usize]) {
    for room in rooms {
        let expected = accepted_if(*room >= exact.room, Refusal::PackedOutput);
        add_encode(plan, Encode { room: *room, ..exact.clone() }, expected);
    }
}

/// Every size of a frame, with bytes to spare in every second one.
fn add_frame_sizes(plan: &mut Plan, random: &mut Random, channel: Channel) {
    for words in 0..=MOST_WORDS {
        let exact = sized_encode(random, channel, words);
        let spare = if words % 2 == 0 { 0 } else { random.between(1, 20) };
        add_encode(plan, Encode { room: exact.room + spare, ..exact }, Expected::Accepted);
    }
}

/// A start length and a room that would do leave the refusal of the size.
fn add_wrong_sizes(plan: &mut Plan, random: &mut Random, channel: Channel) {
    let too_long = [LARGEST_FRAME - 1, LARGEST_FRAME + 1, LARGEST_FRAME + 2, LIMIT];
    for size in (0..SMALLEST_FRAME).chain([SMALLEST_FRAME + 1]).chain(too_long) {
        let given = OnChannel { channel: channel.number(), bytes: random.bytes(size) };
        let exact = Encode::exact(given, fair_start(random));
        let refusal = if size < SMALLEST_FRAME { Refusal::TooFewBytes } else { Refusal::Size };
        add_encode(plan, Encode { room: exact.room.min(LIMIT), ..exact }, Expected::Refused(refusal));
    }
}

/// 02: any accepted frame will do, so also one with the reserved bit 1, a null frame and one that isn't for a static slot.
fn add_flags(plan: &mut Plan, random: &mut Random, channel: Channel) {
    for flags in 0..32 {
        let indicators = Indicators::from_flags(flags);
        let draft = Draft { indicators, ..Draft::fair(random, channel, 1) };
        let right = !indicators.startup_without_sync();
        let encode = exact(&draft, fair_start(random));
        add_encode(plan, encode, accepted_if(right, Refusal::StartupWithoutSync));
    }
}

/// Payloads in which no bit or every bit differs from the one before, and every byte but two.
fn add_patterns(plan: &mut Plan, random: &mut Random, channel: Channel) {
    let largest: Vec<u8> = (1..=LARGEST_PAYLOAD as u8).collect();
    for payload in [vec![0x00; 4], vec![0xFF; 4], vec![0x55; 4], vec![0xAA; 4], largest] {
        let fair = Draft::fair(random, channel, (payload.len() / 2) as u8);
        let encode = exact(&Draft { payload, ..fair }, fair_start(random));
        add_encode(plan, encode, Expected::Accepted);
    }
}

fn add_rooms(plan: &mut Plan, random: &mut Random, channel: Channel) {
    let shortest: Vec<usize> = (0..=20).collect();
    let around_longest = [0, 1, 11, LARGEST_FRAME, 328, 329, 330, 331, LIMIT - 1, LIMIT];
    let [first, last] = [*START_LENGTHS.start(), *START_LENGTHS.end()];
    for (words, start, rooms) in [(0, first, &shortest[..]), (0, last, &shortest), (MOST_WORDS, last, &around_longest)]
    {
        let exact = exact(&Draft::fair(random, channel, words), start);
        add_rooms_of(plan, &exact, rooms);
    }
}

/// The longest frame with start lengths of which 002 tells the bits (B.4.12, table B-21).
fn add_lengths_of_002(plan: &mut Plan, random: &mut Random, channel: Channel) {
    for start in [5, 8, 15] {
        add_encode(plan, exact(&Draft::fair(random, channel, MOST_WORDS), start), Expected::Accepted);
    }
}

/// All causes alone and together; the first in 02's order of an encoding is the answer.
fn add_selections(plan: &mut Plan, random: &mut Random) {
    for faults in selections(&ENCODE_ORDER) {
        plan.add_faulty(faulty_encode(random, &faults), &faults);
    }
}
