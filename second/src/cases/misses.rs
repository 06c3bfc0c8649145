//! The tests (a) to (e) of 01 "Judging a slot": their order, and that the first reason and the first good frame stay.

use crate::channel::Channel;
use crate::draft::Draft;
use crate::faults::selections;
use crate::frame::{Indicators, CYCLE_BITS, ID_BITS};
use crate::history::{play_opened, play_put, Happening, Sort};
use crate::marks::Mark;
use crate::plan::Plan;
use crate::random::Random;
use crate::reason::{Reason, Test};
use crate::scene::{Kind, Scene};
use crate::settings::STATIC_SLOTS;
use crate::status_numbers::StatusNumbers;

pub fn add(plan: &mut Plan, random: &mut Random) {
    for channel in Channel::BOTH {
        for kind in Kind::BOTH {
            add_two_misses(plan, random, channel, kind);
            add_misses_after_foreign_reasons(plan, random, channel, kind);
            add_bad_after_good(plan, random, channel, kind);
            add_misses_together(plan, random, channel, kind);
            add_single_bits(plan, random, channel, kind);
        }
        add_later_good(plan, random, channel);
    }
}

/// Each miss first, each later one after it, and a good frame and the first miss once more behind both.
fn add_two_misses(plan: &mut Plan, random: &mut Random, channel: Channel, kind: Kind) {
    for first in kind.tests() {
        for later in kind.tests() {
            let scene = Scene::fair(random, channel, kind);
            let history = [
                Happening::missing(random, &scene, &[*first]),
                Happening::missing(random, &scene, &[*later]),
                Happening::Good(scene.good(random)),
                Happening::missing(random, &scene, &[*first]),
            ];
            play_opened(plan, &scene, &history);
        }
    }
}

/// A reason that this kind of slot can't come by is sound in it all the same, and stays as well.
fn add_misses_after_foreign_reasons(plan: &mut Plan, random: &mut Random, channel: Channel, kind: Kind) {
    for foreign in Test::IN_ORDER.into_iter().filter(|test| !kind.tests().contains(test)) {
        for later in kind.tests() {
            let scene = Scene::fair(random, channel, kind);
            let marks = Mark::ContentError.bit();
            let before = StatusNumbers { marks, reason: Reason::Missed(foreign).number(), ..scene.fresh() };
            let history = [Happening::missing(random, &scene, &[*later]), Happening::Good(scene.good(random))];
            play_put(plan, &before, &history);
        }
    }
}

fn add_bad_after_good(plan: &mut Plan, random: &mut Random, channel: Channel, kind: Kind) {
    for test in kind.tests() {
        let scene = Scene::fair(random, channel, kind);
        let history = [
            Happening::Good(scene.good(random)),
            Happening::missing(random, &scene, &[*test]),
            Happening::any(random, &scene, Sort::Refused),
            Happening::Good(scene.good(random)),
        ];
        play_opened(plan, &scene, &history);
    }
}

/// Frames that miss any number of tests at once: the first of (a) to (e) is the reason.
fn add_misses_together(plan: &mut Plan, random: &mut Random, channel: Channel, kind: Kind) {
    for missed in selections(kind.tests()).into_iter().skip(1) {
        let scene = Scene::fair(random, channel, kind);
        play_opened(plan, &scene, &[Happening::missing(random, &scene, &missed)]);
    }
}

/// IDs and cycles that differ in one bit.
fn add_single_bits(plan: &mut Plan, random: &mut Random, channel: Channel, kind: Kind) {
    for bit in 0..ID_BITS {
        let scene = slot_of_many_bits(random, channel, kind);
        let good = scene.good(random);
        let wrong = Draft { id: good.id ^ 1 << bit, ..good };
        play_opened(plan, &scene, &[Happening::Missing(Test::Id, wrong)]);
    }
    for bit in 0..CYCLE_BITS {
        let scene = slot_of_many_bits(random, channel, kind);
        let good = scene.good(random);
        let wrong = Draft { cycle: good.cycle ^ 1 << bit, ..good };
        play_opened(plan, &scene, &[Happening::Missing(Test::Cycle, wrong)]);
    }
}

/// A slot whose number stays in its range whichever bit is turned over: with 1000 static slots 0x155 is static and
/// 0x555 dynamic.
fn slot_of_many_bits(random: &mut Random, channel: Channel, kind: Kind) -> Scene {
    let fair = Scene::fair(random, channel, kind);
    let slot = match kind {
        Kind::Static => 0x155,
        Kind::Dynamic => 0x555,
    };
    Scene { slot, settings: fair.settings.with_field(STATIC_SLOTS, 1000), ..fair }
}

/// What can differ between two good frames of a slot.
#[derive(Clone, Copy)]
enum Difference {
    Reserved,
    Preamble,
    NullFrame,
    Sync,
    Startup,
    Words,
}

/// Two good frames that differ in one thing: the first is kept, and the other one marked (02 C-15). Three of the five bits
/// differ in static slots only, the words in dynamic ones only.
fn add_later_good(plan: &mut Plan, random: &mut Random, channel: Channel) {
    let differences = [
        (Kind::Static, Difference::Reserved),
        (Kind::Static, Difference::Preamble),
        (Kind::Static, Difference::NullFrame),
        (Kind::Static, Difference::Sync),
        (Kind::Static, Difference::Startup),
        (Kind::Dynamic, Difference::Reserved),
        (Kind::Dynamic, Difference::Preamble),
        (Kind::Dynamic, Difference::Words),
    ];
    for (kind, difference) in differences {
        let scene = Scene::fair(random, channel, kind);
        let [one, other] = differing(random, &scene, difference).map(Happening::Good);
        play_opened(plan, &scene, &[one.clone(), other.clone()]);
        play_opened(plan, &scene, &[other, one]);
    }
}

fn differing(random: &mut Random, scene: &Scene, difference: Difference) -> [Draft; 2] {
    let good = scene.good(random);
    let bits = good.indicators;
    let with = |indicators| Draft { indicators, ..good.clone() };
    match difference {
        Difference::Reserved => [true, false].map(|reserved| with(Indicators { reserved, ..bits })),
        Difference::Preamble => [true, false].map(|preamble| with(Indicators { preamble, ..bits })),
        Difference::NullFrame => [true, false].map(|null_frame| with(Indicators { null_frame, ..bits })),
        Difference::Sync => [true, false].map(|sync| with(Indicators { sync, startup: false, ..bits })),
        Difference::Startup => [true, false].map(|startup| with(Indicators { sync: true, startup, ..bits })),
        Difference::Words => [3, 4].map(|words| good.clone().with_words(random, words)),
    }
}
