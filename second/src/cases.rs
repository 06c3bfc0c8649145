//! The listed cases, subject by subject.

mod bench;
mod borders;
mod both_checksums;
mod checksums;
pub mod clock;
mod damage;
mod encoding;
mod histories;
mod listed;
mod listed_frames;
mod listed_slots;
mod listed_streams;
mod misses;
mod null_frames;
mod openings;
mod reader;
mod reading;
mod round_trips;
mod second_frames;
mod sizes;
mod soundness;
mod undisturbed;
mod unlooked;
mod writing;

use crate::mixture;
use crate::plan::{Expected, Plan};
use crate::random::Random;
use crate::script::{Command, Letters};

pub use bench::SHORT_INPUTS;
pub use borders::{BORDERS, LOOKS};
pub use both_checksums::{OF_HEADER, OF_TRAILER, SIZES as WRONG_CHECKSUM_SIZES};
pub use listed::CHECK_VALUES;
pub use listed_frames::{HEADER_CHECKSUMS, HEADER_REMAINDERS, REMAINDER};
pub use null_frames::{BYTES, CANCELLING, NULL_FLAGS, SIZES, WRONG_SIZES};

/// Fixed, so that the script is the same at every run.
const SEED: u64 = 0x01_0019_0262;

const RANDOM_COMMANDS: usize = 5000;
const SLOT_STRETCHES: usize = 200;
const CLOCK_STRETCHES: usize = 60;
const READER_STRETCHES: usize = 8;

pub fn all() -> Plan {
    let mut random = Random::from_seed(SEED);
    let mut plan = Plan::default();
    listed::add(&mut plan, &mut random);
    listed_frames::add(&mut plan, &mut random);
    checksums::add(&mut plan, &mut random);
    sizes::add(&mut plan, &mut random);
    reading::add(&mut plan, &mut random);
    damage::add(&mut plan, &mut random);
    writing::add(&mut plan, &mut random);
    round_trips::add(&mut plan, &mut random);
    bench::add(&mut plan, &mut random);
    listed_streams::add(&mut plan);
    encoding::add(&mut plan, &mut random);
    add_mixture(&mut plan, &mut random);
    // Behind everything about frames alone, whose commands keep their places; the first of these finds no slot opened.
    histories::add(&mut plan, &mut random);
    listed_slots::add(&mut plan);
    misses::add(&mut plan, &mut random);
    borders::add(&mut plan, &mut random);
    openings::add(&mut plan, &mut random);
    soundness::add(&mut plan, &mut random);
    unlooked::add(&mut plan, &mut random);
    undisturbed::add(&mut plan, &mut random);
    add_slot_mixture(&mut plan, &mut random);
    second_frames::add(&mut plan, &mut random);
    null_frames::add(&mut plan, &mut random);
    both_checksums::add(&mut plan, &mut random);
    // Behind everything about slots: the first of these finds no clock loaded.
    clock::add(&mut plan, &mut random);
    add_clock_mixture(&mut plan, &mut random);
    // Behind everything about the clock: the first of these finds no reader opened.
    reader::add(&mut plan, &mut random);
    add_reader_mixture(&mut plan, &mut random);
    plan
}

/// 02 C-18: those about frames that a player of frames knows.
pub fn frames() -> Plan {
    let mut random = Random::from_seed(SEED);
    let mut plan = Plan::default();
    listed::add(&mut plan, &mut random);
    listed_frames::add(&mut plan, &mut random);
    checksums::add(&mut plan, &mut random);
    sizes::add(&mut plan, &mut random);
    reading::add(&mut plan, &mut random);
    bench::add(&mut plan, &mut random);
    both_checksums::add_frames(&mut plan, &mut random);
    add_mixture(&mut plan, &mut random);
    plan.known_to(Letters::Frames)
}

fn add_mixture(plan: &mut Plan, random: &mut Random) {
    for _ in 0..RANDOM_COMMANDS {
        plan.add(mixture::frame_command(random), Expected::Anything);
    }
}

fn add_slot_mixture(plan: &mut Plan, random: &mut Random) {
    for _ in 0..SLOT_STRETCHES {
        add_anything(plan, mixture::slot_stretch(random));
    }
}

fn add_clock_mixture(plan: &mut Plan, random: &mut Random) {
    for _ in 0..CLOCK_STRETCHES {
        add_anything(plan, mixture::clock_stretch(random));
    }
}

fn add_reader_mixture(plan: &mut Plan, random: &mut Random) {
    for _ in 0..READER_STRETCHES {
        add_anything(plan, mixture::reader_stretch(random));
    }
}

fn add_anything(plan: &mut Plan, commands: Vec<Command>) {
    commands.into_iter().for_each(|command| plan.add(command, Expected::Anything));
}
