//! Statuses that are put with reason (f), sound or not, and with "valid" beside no reason or another one.

use crate::channel::Channel;
use crate::draft::Draft;
use crate::faults::selections;
use crate::history::{play_put, play_refused, put, show, Happening, Sort};
use crate::marks::Mark;
use crate::plan::Plan;
use crate::random::Random;
use crate::reason::{Reason, Test};
use crate::scene::{Kind, Scene};
use crate::status_numbers::{HeaderNumbers, StatusNumbers};

/// The marks with which (f) is sound beside a kept frame: "content error" and "valid", with and without "syntax error"
/// and "boundary violation", and "conflict" just where own sending is recorded. Written out, so that a wrong rule shows.
const SOUND_WITH_F: [u8; 8] = [18, 19, 22, 23, 58, 59, 62, 63];

/// In the same way the marks with which a kept frame is sound beside no reason.
const SOUND_WITHOUT: [u8; 8] = [16, 17, 20, 21, 56, 57, 60, 61];

pub fn add(plan: &mut Plan, random: &mut Random, channel: Channel, kind: Kind) {
    for marks in SOUND_WITH_F {
        let scene = Scene::fair(random, channel, kind);
        add_sound(plan, random, &scene, marks);
    }
    for marks in selections(&[Mark::ContentError, Mark::Valid, Mark::OwnSending, Mark::Conflict]) {
        let scene = Scene::fair(random, channel, kind);
        add_unsound(plan, random, &scene, marks.into_iter().map(Mark::bit).sum());
    }
    for (marks, test) in SOUND_WITHOUT.into_iter().zip(kind.tests().iter().cycle()) {
        let scene = Scene::fair(random, channel, kind);
        add_behind_valid(plan, random, &scene, marks, *test);
    }
    for test in Test::IN_ORDER {
        let scene = Scene::fair(random, channel, kind);
        add_behind_reason(plan, random, &scene, Reason::Missed(test));
    }
}

/// A status with these marks that keeps this frame, whether they ask for it or not.
fn keeping(scene: &Scene, frame: &Draft, marks: u8, reason: Option<Reason>) -> StatusNumbers {
    let header = HeaderNumbers::of(&frame.fields());
    StatusNumbers { marks, reason: reason.map_or(0, Reason::number), kept: true, header, ..scene.fresh() }
}

fn every_miss(random: &mut Random, scene: &Scene) -> Vec<Happening> {
    scene.kind.tests().iter().map(|test| Happening::missing(random, scene, &[*test])).collect()
}

/// (f) stays behind every event.
fn add_sound(plan: &mut Plan, random: &mut Random, scene: &Scene, marks: u8) {
    let sound = keeping(scene, &scene.good(random), marks, Some(Reason::SecondGoodFrame));
    let others = [Sort::NoBytes, Sort::Refused, Sort::Good, Sort::Boundary, Sort::OwnSending];
    let mut events: Vec<Happening> = others.map(|sort| Happening::any(random, scene, sort)).into();
    events.extend(every_miss(random, scene));
    for event in events {
        play_put(plan, &sound, &[event]);
    }
}

/// (f) with a kept frame and without one; with these marks it may be sound beside the frame.
fn add_unsound(plan: &mut Plan, random: &mut Random, scene: &Scene, marks: u8) {
    let kept = keeping(scene, &scene.good(random), marks, Some(Reason::SecondGoodFrame));
    for numbers in [kept, StatusNumbers { kept: false, ..kept }] {
        if numbers.kept && SOUND_WITH_F.contains(&marks) {
            continue;
        }
        put(plan, &numbers);
        show(plan, &numbers);
        play_refused(plan, &numbers, scene.good(random).bytes());
    }
}

/// A good frame with the header of the kept one and a third one, and another good frame and a miss.
fn add_behind_valid(plan: &mut Plan, random: &mut Random, scene: &Scene, marks: u8, test: Test) {
    let first = scene.good(random);
    let before = keeping(scene, &first, marks, None);
    play_put(plan, &before, &[Happening::Good(first), Happening::Good(scene.good(random))]);
    let history = [Happening::Good(scene.good(random)), Happening::missing(random, scene, &[test])];
    play_put(plan, &before, &history);
}

/// One of (a) to (e), also one that this kind of slot can't come by, without a kept frame and with one: it stays.
fn add_behind_reason(plan: &mut Plan, random: &mut Random, scene: &Scene, reason: Reason) {
    let content_error = Mark::ContentError.bit();
    let with_frame = keeping(scene, &scene.good(random), content_error | Mark::Valid.bit(), Some(reason));
    let without = StatusNumbers { marks: content_error, kept: false, ..with_frame };
    for before in [without, with_frame] {
        let mut history = every_miss(random, scene);
        history.extend([(); 2].map(|_| Happening::Good(scene.good(random))));
        play_put(plan, &before, &history);
    }
}
