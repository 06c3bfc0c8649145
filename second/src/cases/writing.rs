//! Writes: every value of every field, sizes and rooms, every refusal and all their coincidences.

use crate::channel::Channel;
use crate::faults::{fair_write, faulty_write, selections};
use crate::frame::{Indicators, HIGHEST_CYCLE, HIGHEST_ID, LARGEST_FRAME, LARGEST_PAYLOAD};
use crate::payloads;
use crate::plan::{Expected, Plan};
use crate::random::Random;
use crate::refusal::{Refusal, WRITE_ORDER};
use crate::script::{Command, Write, LIMIT};

const ROUNDS_OF_SELECTIONS: usize = 3;

pub fn add(plan: &mut Plan, random: &mut Random) {
    add_channels(plan, random);
    for channel in Channel::BOTH {
        add_payload_sizes(plan, random, channel);
        add_wrong_payload_sizes(plan, random, channel);
        add_ids(plan, random, channel);
        add_cycles(plan, random, channel);
        add_flags(plan, random, channel);
        add_rooms(plan, random, channel);
    }
    for _ in 0..ROUNDS_OF_SELECTIONS {
        add_selections(plan, random);
    }
}

pub(super) fn accepted_if(right: bool, refusal: Refusal) -> Expected {
    if right {
        Expected::Accepted
    } else {
        Expected::Refused(refusal)
    }
}

fn add_channels(plan: &mut Plan, random: &mut Random) {
    for channel in 2..=255 {
        let write = Write { channel, ..fair_write(random, Channel::A, 2) };
        plan.add(Command::Write(write), Expected::Refused(Refusal::Channel));
    }
}

fn add_payload_sizes(plan: &mut Plan, random: &mut Random, channel: Channel) {
    for size in (0..=LARGEST_PAYLOAD).step_by(2) {
        let exact = fair_write(random, channel, size);
        let spare = if size % 4 == 0 { 0 } else { random.between(1, 20) };
        let write = Write { room: exact.room + spare, ..exact };
        plan.add(Command::Write(write), Expected::Accepted);
    }
}

fn add_wrong_payload_sizes(plan: &mut Plan, random: &mut Random, channel: Channel) {
    let odd = (1..LARGEST_PAYLOAD).step_by(2);
    let too_many = (LARGEST_PAYLOAD + 1..=LARGEST_PAYLOAD + 4).chain([510, 511, 512, LIMIT - 2, LIMIT - 1, LIMIT]);
    for size in odd.chain(too_many) {
        // A room of any size leaves refusal 10 the first.
        let room = random.pick(&[0, 8, 30]);
        let write = Write { room, ..fair_write(random, channel, size) };
        plan.add(Command::Write(write), Expected::Refused(Refusal::PayloadToWrite));
    }
    let write = Write { room: LIMIT, ..fair_write(random, channel, LARGEST_PAYLOAD + 2) };
    plan.add(Command::Write(write), Expected::Refused(Refusal::PayloadToWrite));
}

fn add_ids(plan: &mut Plan, random: &mut Random, channel: Channel) {
    let powers = (0..16).map(|place| 1 << place);
    let ends = [0, 3, HIGHEST_ID - 1, HIGHEST_ID, HIGHEST_ID + 2, 4095, 4097, 32767, u16::MAX - 1, u16::MAX];
    for id in powers.chain(ends) {
        let write = Write { id, ..fair_write(random, channel, 4) };
        let right = (1..=HIGHEST_ID).contains(&id);
        plan.add(Command::Write(write), accepted_if(right, Refusal::IdGiven));
    }
}

fn add_cycles(plan: &mut Plan, random: &mut Random, channel: Channel) {
    for cycle in 0..=255 {
        let write = Write { cycle, ..fair_write(random, channel, 0) };
        plan.add(Command::Write(write), accepted_if(cycle <= HIGHEST_CYCLE, Refusal::Cycle));
    }
}

/// All 256 flag bytes, null frames having zeros; the three unnamed bits change nothing.
fn add_flags(plan: &mut Plan, random: &mut Random, channel: Channel) {
    for flags in 0..=255 {
        let payload = payloads::writable(random, Indicators::from_flags(flags), 2);
        let write = Write { flags, payload, ..fair_write(random, channel, 2) };
        plan.add(Command::Write(write), by_flags(flags));
    }
}

/// What the flags decide, whatever the payload.
pub(super) fn by_flags(flags: u8) -> Expected {
    const RESERVED: u8 = 1;
    const SYNC: u8 = 8;
    const STARTUP: u8 = 16;
    if flags & STARTUP != 0 && flags & SYNC == 0 {
        return Expected::Refused(Refusal::StartupWithoutSync);
    }
    accepted_if(flags & RESERVED == 0, Refusal::ReservedToWrite)
}

fn add_rooms(plan: &mut Plan, random: &mut Random, channel: Channel) {
    add_rooms_for(plan, random, channel, 0, &(0..=20).collect::<Vec<usize>>());
    add_rooms_for(plan, random, channel, 4, &(0..=40).collect::<Vec<usize>>());
    let around = LARGEST_FRAME - 2..=LARGEST_FRAME + 2;
    let rooms: Vec<usize> = [0, 1, 8, LARGEST_PAYLOAD].into_iter().chain(around).chain([LIMIT - 1, LIMIT]).collect();
    add_rooms_for(plan, random, channel, LARGEST_PAYLOAD, &rooms);
}

fn add_rooms_for(plan: &mut Plan, random: &mut Random, channel: Channel, size: usize, rooms: &[usize]) {
    for room in rooms {
        let exact = fair_write(random, channel, size);
        let expected = accepted_if(*room >= exact.room, Refusal::Output);
        plan.add(Command::Write(Write { room: *room, ..exact }), expected);
    }
}

/// All causes alone and together; the first in 01's order of a write is the answer.
fn add_selections(plan: &mut Plan, random: &mut Random) {
    for faults in selections(&WRITE_ORDER) {
        plan.add_faulty(faulty_write(random, &faults), &faults);
    }
}
