//! 02 C-15: frames that pass all tests in a slot behind one that did, among everything else that can happen in it.

mod put_statuses;

use super::histories::play_sorts;
use super::listed_slots::add_way;
use crate::channel::Channel;
use crate::draft::Draft;
use crate::faults::selections;
use crate::frame::Indicators;
use crate::history::{play_opened, Happening, Sort};
use crate::plan::Plan;
use crate::random::Random;
use crate::scene::{Kind, Scene};
use crate::settings::STATIC_WORDS;

/// What happens, in the letters of the listed slots, and marks, reason, kept switch and kept frame afterwards.
const WAYS: [(&str, &str); 19] = [
    // Equal frames are two as well as different ones, and the first one stays.
    ("vv", "18 6 1 4 1 0 1695 0"),
    ("vw", "18 6 1 4 1 0 1695 0"),
    ("wv", "18 6 1 2 1 0 1695 0"),
    ("vvv", "18 6 1 4 1 0 1695 0"),
    ("wvv", "18 6 1 2 1 0 1695 0"),
    // So does the first reason.
    ("cvv", "18 1 1 4 1 0 1695 0"),
    ("vcv", "18 1 1 4 1 0 1695 0"),
    ("vvc", "18 6 1 4 1 0 1695 0"),
    // What gives no reason has its marks as ever.
    ("svv", "19 6 1 4 1 0 1695 0"),
    ("vsv", "19 6 1 4 1 0 1695 0"),
    ("vvs", "19 6 1 4 1 0 1695 0"),
    ("bvv", "22 6 1 4 1 0 1695 0"),
    ("vbv", "22 6 1 4 1 0 1695 0"),
    ("vvb", "22 6 1 4 1 0 1695 0"),
    ("xvv", "58 6 1 4 1 0 1695 0"),
    ("vxv", "58 6 1 4 1 0 1695 0"),
    ("vvx", "58 6 1 4 1 0 1695 0"),
    ("sbxvv", "63 6 1 4 1 0 1695 0"),
    ("wsbxvc", "63 6 1 2 1 0 1695 0"),
];

/// No clock is loaded yet.
pub fn add(plan: &mut Plan, random: &mut Random) {
    for channel in Channel::BOTH {
        for (letters, shown) in WAYS {
            add_way(plan, channel, letters, shown);
        }
        for kind in Kind::BOTH {
            add_like_the_first(plan, random, channel, kind);
            add_misses(plan, random, channel, kind);
            add_among_others(plan, random, channel, kind);
            put_statuses::add(plan, random, channel, kind);
        }
    }
}

/// A second and a third good frame, each of them the first one again, or one with another payload or with another header.
fn add_like_the_first(plan: &mut Plan, random: &mut Random, channel: Channel, kind: Kind) {
    const WORDS: u8 = 2;
    let fair = Scene::fair(random, channel, kind);
    let scene = Scene { settings: fair.settings.with_field(STATIC_WORDS, WORDS.into()), ..fair };
    let first = scene.good(random).with_words(random, WORDS);
    let bits = first.indicators;
    let with = |indicators| Draft { indicators, ..first.clone() };
    let other_payload = Draft { payload: first.payload.iter().map(|byte| !byte).collect(), ..first.clone() };
    let other_preamble = with(Indicators { preamble: !bits.preamble, ..bits });
    let other_by_kind = match kind {
        Kind::Static => with(Indicators { null_frame: !bits.null_frame, ..bits }),
        Kind::Dynamic => first.clone().with_words(random, WORDS + 1),
    };
    let all = [first.clone(), other_payload, other_preamble, other_by_kind];
    for second in &all {
        for third in &all {
            let history = [&first, second, third].map(|draft| Happening::Good(draft.clone()));
            play_opened(plan, &scene, &history);
        }
    }
}

/// Each miss before, between and behind three good frames.
fn add_misses(plan: &mut Plan, random: &mut Random, channel: Channel, kind: Kind) {
    for test in kind.tests() {
        for place in 0..=3 {
            let scene = Scene::fair(random, channel, kind);
            let mut history: Vec<Happening> = (0..3).map(|_| Happening::Good(scene.good(random))).collect();
            history.insert(place, Happening::missing(random, &scene, &[*test]));
            play_opened(plan, &scene, &history);
        }
    }
}

/// Everything that gives no reason before, between and behind two good frames.
fn add_among_others(plan: &mut Plan, random: &mut Random, channel: Channel, kind: Kind) {
    for others in selections(&[Sort::Refused, Sort::OwnSending, Sort::Boundary]).into_iter().skip(1) {
        for place in 0..=2 {
            let mut sorts = vec![Sort::Good; 2];
            sorts.splice(place..place, others.clone());
            let scene = Scene::fair(random, channel, kind);
            play_sorts(plan, random, &scene, &sorts);
        }
    }
}
