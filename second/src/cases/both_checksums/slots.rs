//! Syntax errors in slots that were opened: what the first one tells stays, whatever comes behind it.

use super::wrong_frames;
use crate::channel::Channel;
use crate::frame::MOST_WORDS;
use crate::history::{play_opened, Happening, Sort};
use crate::plan::Plan;
use crate::random::Random;
use crate::refusal::{Refusal, READ_ORDER};
use crate::scene::{Kind, Scene};

pub(super) fn add(plan: &mut Plan, random: &mut Random) {
    for (channel, kind) in [(Channel::A, Kind::Static), (Channel::B, Kind::Dynamic)] {
        add_two(plan, random, channel, kind);
        add_rows(plan, random, channel, kind);
    }
    for channel in Channel::BOTH {
        for kind in Kind::BOTH {
            for refusal in [Refusal::HeaderChecksum, Refusal::FrameChecksum] {
                add_among_others(plan, random, channel, kind, refusal);
            }
            add_one_frame(plan, random, channel, kind);
        }
        add_sizes(plan, random, channel);
    }
}

fn refused(random: &mut Random, scene: &Scene, refusal: Refusal) -> Happening {
    Happening::Refused(scene.refused(random, refusal))
}

/// Every two read refusals, one behind the other, but that of a channel, which a slot can't meet.
fn add_two(plan: &mut Plan, random: &mut Random, channel: Channel, kind: Kind) {
    for first in &READ_ORDER[1..] {
        for second in &READ_ORDER[1..] {
            let scene = Scene::fair(random, channel, kind);
            let history = [*first, *second].map(|refusal| refused(random, &scene, refusal));
            play_opened(plan, &scene, &history);
        }
    }
}

/// Everything else that can happen, before a refusal, behind it and between two of them.
fn add_among_others(plan: &mut Plan, random: &mut Random, channel: Channel, kind: Kind, refusal: Refusal) {
    for other in [Sort::Good, Sort::Missing, Sort::NoBytes, Sort::Boundary, Sort::OwnSending] {
        let scene = Scene::fair(random, channel, kind);
        let mut next = |is_other| match is_other {
            true => Happening::any(random, &scene, other),
            false => refused(random, &scene, refusal),
        };
        let histories = [
            vec![next(true), next(false)],
            vec![next(false), next(true)],
            vec![next(true), next(false), next(true)],
            vec![next(false), next(true), next(false)],
        ];
        histories.iter().for_each(|history| play_opened(plan, &scene, history));
    }
}

/// All of them in their order, and backwards.
fn add_rows(plan: &mut Plan, random: &mut Random, channel: Channel, kind: Kind) {
    let scene = Scene::fair(random, channel, kind);
    let mut row: Vec<Happening> = READ_ORDER[1..].iter().map(|refusal| refused(random, &scene, *refusal)).collect();
    play_opened(plan, &scene, &row);
    row.reverse();
    play_opened(plan, &scene, &row);
}

/// In a dynamic slot, where words may be any.
fn add_sizes(plan: &mut Plan, random: &mut Random, channel: Channel) {
    for words in [0, 1, 64, MOST_WORDS] {
        let scene = Scene::fair(random, channel, Kind::Dynamic);
        let good = scene.good(random).with_words(random, words);
        for wrong in wrong_frames(&good) {
            play_opened(plan, &scene, &[Happening::Refused(wrong)]);
        }
    }
}

/// One good frame with each of its checksums wrong in several ways: each first once, the next one and itself behind it.
fn add_one_frame(plan: &mut Plan, random: &mut Random, channel: Channel, kind: Kind) {
    let scene = Scene::fair(random, channel, kind);
    let wrong: Vec<Happening> = wrong_frames(&scene.good(random)).into_iter().map(Happening::Refused).collect();
    for (first, second) in wrong.iter().zip(wrong.iter().cycle().skip(1)) {
        play_opened(plan, &scene, &[first.clone(), second.clone(), first.clone()]);
    }
}
