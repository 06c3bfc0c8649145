//! Openings of a slot: the ends of every range, every refusal and all their coincidences, and the zeros they leave.

use crate::channel::Channel;
use crate::faults::{faulty_opening, selections, wrong_value};
use crate::frame::{HIGHEST_CYCLE, HIGHEST_ID};
use crate::history::{play, play_opened, play_refused, show, Happening};
use crate::plan::{Expected, Plan};
use crate::random::Random;
use crate::refusal::{Refusal, OPEN_SLOT_ORDER};
use crate::scene::{Kind, Scene};
use crate::script::{Command, Opening};
use crate::settings::{self, FIELDS};
use crate::status_numbers::StatusNumbers;

const ROUNDS_OF_SELECTIONS: usize = 2;

pub fn add(plan: &mut Plan, random: &mut Random) {
    for field in 1..=FIELDS {
        add_ends(plan, random, field);
        add_beyond(plan, random, field);
        for later in field + 1..=FIELDS {
            add_two_fields(plan, random, field, later);
        }
    }
    add_channels(plan, random);
    add_slots(plan, random);
    add_cycles(plan, random);
    for _ in 0..ROUNDS_OF_SELECTIONS {
        add_selections(plan, random);
    }
}

/// Opens a slot, in which one frame arrives.
fn add_taken(plan: &mut Plan, random: &mut Random, scene: &Scene) {
    plan.add(scene.open(), Expected::line("slot 0 0"));
    show(plan, &scene.fresh());
    play(plan, &scene.fresh(), &[Happening::Good(scene.good(random))]);
}

fn add_ends(plan: &mut Plan, random: &mut Random, field: usize) {
    let (lowest, highest) = settings::ends(field);
    for value in [lowest, highest] {
        let fair = Scene::first_slot(random);
        let scene = Scene { settings: fair.settings.with_field(field, value), ..fair };
        add_taken(plan, random, &scene);
    }
}

/// Just out of range and far out, also where the lowest bits alone would be in range.
fn add_beyond(plan: &mut Plan, random: &mut Random, field: usize) {
    let (lowest, highest) = settings::ends(field);
    let far = [highest + 1, lowest + 0x1_0000, lowest + 0x8000_0000, u32::MAX];
    for value in lowest.checked_sub(1).into_iter().chain(far) {
        let fair = Scene::any(random).opening();
        let opening = Opening { settings: fair.settings.with_field(field, value), ..fair };
        add_refused(plan, random, opening, Refusal::Setting, field);
    }
}

fn add_two_fields(plan: &mut Plan, random: &mut Random, first: usize, later: usize) {
    let fair = Scene::any(random).opening();
    let with_later = fair.settings.with_field(later, wrong_value(random, later));
    let opening = Opening { settings: with_later.with_field(first, wrong_value(random, first)), ..fair };
    add_refused(plan, random, opening, Refusal::Setting, first);
}

fn add_channels(plan: &mut Plan, random: &mut Random) {
    for channel in [2, 3, 128, 254, 255] {
        let opening = Opening { channel, ..Scene::any(random).opening() };
        add_refused(plan, random, opening, Refusal::Channel, 0);
    }
}

fn add_slots(plan: &mut Plan, random: &mut Random) {
    for channel in Channel::BOTH {
        let fair = Scene::fair(random, channel, Kind::Static);
        add_taken(plan, random, &Scene { slot: 1, ..fair });
        let fair = Scene::fair(random, channel, Kind::Dynamic);
        add_taken(plan, random, &Scene { slot: HIGHEST_ID, ..fair });
    }
    for slot in [0, HIGHEST_ID + 1, HIGHEST_ID + 2, 4096, 32768, u16::MAX] {
        let opening = Opening { slot, ..Scene::any(random).opening() };
        add_refused(plan, random, opening, Refusal::IdGiven, 0);
    }
}

fn add_cycles(plan: &mut Plan, random: &mut Random) {
    for cycle in [0, HIGHEST_CYCLE] {
        let scene = Scene { cycle, ..Scene::any(random) };
        add_taken(plan, random, &scene);
    }
    for cycle in [HIGHEST_CYCLE + 1, HIGHEST_CYCLE + 2, 127, 128, u8::MAX] {
        let opening = Opening { cycle, ..Scene::any(random).opening() };
        add_refused(plan, random, opening, Refusal::Cycle, 0);
    }
}

/// All causes alone and together; the first in 01's order of opening a slot is the answer.
fn add_selections(plan: &mut Plan, random: &mut Random) {
    for faults in selections(&OPEN_SLOT_ORDER) {
        let opening = faulty_opening(random, &faults);
        plan.add_faulty(Command::OpenSlot(opening), &faults);
        if !faults.is_empty() {
            add_zeros(plan, random);
        }
    }
}

/// A refused opening while a slot with something in it is held: of that nothing stays.
fn add_refused(plan: &mut Plan, random: &mut Random, opening: Opening, refusal: Refusal, field: usize) {
    let held = Scene::any(random);
    play_opened(plan, &held, &[Happening::OwnSending, Happening::Good(held.good(random))]);
    let line = format!("slot {} {field}", refusal.number());
    plan.add(Command::OpenSlot(opening), Expected::Line(line));
    add_zeros(plan, random);
}

/// The status is all zeros, and no event changes that.
fn add_zeros(plan: &mut Plan, random: &mut Random) {
    let zeros = StatusNumbers::default();
    let frame = Scene::any(random).good(random).bytes();
    show(plan, &zeros);
    play_refused(plan, &zeros, frame);
}
