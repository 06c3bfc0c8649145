//! Histories of events in opened slots: every order of three, every reachable set of marks, every refused arrival.

use crate::channel::Channel;
use crate::faults::selections;
use crate::history::{play_opened, play_refused, show, Happening, Sort};
use crate::plan::Plan;
use crate::random::Random;
use crate::refusal::READ_ORDER;
use crate::scene::{Kind, Scene};
use crate::status_numbers::StatusNumbers;

/// One of each that leaves a mark of its own; "conflict" is the sixth mark and follows from the others.
const MARKING: [Sort; 5] = [Sort::Refused, Sort::Missing, Sort::Boundary, Sort::Good, Sort::OwnSending];

const LONG_HISTORIES: usize = 20;
const LONG: usize = 12;

pub fn add(plan: &mut Plan, random: &mut Random) {
    add_never_opened(plan, random);
    for (channel, kind) in [(Channel::A, Kind::Static), (Channel::B, Kind::Dynamic)] {
        add_orders_of_three(plan, random, channel, kind);
    }
    for channel in Channel::BOTH {
        for kind in Kind::BOTH {
            add_sets_of_marks(plan, random, channel, kind);
            add_unreadable(plan, random, channel, kind);
        }
    }
    for _ in 0..LONG_HISTORIES {
        add_long(plan, random);
    }
}

/// No slot was opened yet: the status of all zeros is not sound, and stays.
fn add_never_opened(plan: &mut Plan, random: &mut Random) {
    let zeros = StatusNumbers::default();
    let frame = Scene::any(random).good(random).bytes();
    show(plan, &zeros);
    play_refused(plan, &zeros, frame);
}

pub(super) fn play_sorts(plan: &mut Plan, random: &mut Random, scene: &Scene, sorts: &[Sort]) {
    let history: Vec<Happening> = sorts.iter().map(|sort| Happening::any(random, scene, *sort)).collect();
    play_opened(plan, scene, &history);
}

fn add_orders_of_three(plan: &mut Plan, random: &mut Random, channel: Channel, kind: Kind) {
    for first in Sort::ALL {
        for second in Sort::ALL {
            for third in Sort::ALL {
                let scene = Scene::fair(random, channel, kind);
                play_sorts(plan, random, &scene, &[first, second, third]);
            }
        }
    }
}

/// All selections of what leaves a mark, each in two orders.
fn add_sets_of_marks(plan: &mut Plan, random: &mut Random, channel: Channel, kind: Kind) {
    for mut sorts in selections(&MARKING) {
        for _ in 0..2 {
            let scene = Scene::fair(random, channel, kind);
            play_sorts(plan, random, &scene, &sorts);
            sorts.reverse();
        }
    }
}

/// Frames that would be good, were they not refused: for each cause, and because they are the other channel's.
fn add_unreadable(plan: &mut Plan, random: &mut Random, channel: Channel, kind: Kind) {
    for refusal in &READ_ORDER[1..] {
        let scene = Scene::fair(random, channel, kind);
        let unreadable = scene.refused(random, *refusal);
        play_opened(plan, &scene, &[Happening::Refused(unreadable)]);
    }
    let scene = Scene::fair(random, channel, kind);
    let strange = scene.strange(random);
    play_opened(plan, &scene, &[Happening::Refused(strange)]);
}

fn add_long(plan: &mut Plan, random: &mut Random) {
    let scene = Scene::any(random);
    let sorts: Vec<Sort> = (0..LONG).map(|_| random.pick(&Sort::ALL)).collect();
    play_sorts(plan, random, &scene, &sorts);
}
