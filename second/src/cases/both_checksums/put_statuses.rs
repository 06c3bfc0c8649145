//! Statuses that are put with checksums: with "syntax error" any are sound and stay, without it none are.

use crate::channel::Channel;
use crate::checksum_pair::ChecksumPair;
use crate::history::{play_put, play_refused, put, show, with_conflict, Happening, Sort};
use crate::marks::Mark;
use crate::plan::Plan;
use crate::random::Random;
use crate::refusal::Refusal;
use crate::scene::{Kind, Scene};
use crate::status_numbers::StatusNumbers;

/// Either number alone, equal ones, and different ones, as reading could tell them and as it could not.
pub const PAIRS: [ChecksumPair; 8] = [
    ChecksumPair { found: 0x69F, expected: 0 },
    ChecksumPair { found: u32::MAX, expected: 0 },
    ChecksumPair { found: 0, expected: 0x69F },
    ChecksumPair { found: 0, expected: u32::MAX },
    ChecksumPair { found: 0xD0_5EEA, expected: 0xD0_5EEA },
    ChecksumPair { found: u32::MAX, expected: u32::MAX },
    ChecksumPair { found: 0x3B_D08F, expected: 0xD0_5EEA },
    // Their sum and their lowest three bytes are 0.
    ChecksumPair { found: 0xFF00_0000, expected: 0x0100_0000 },
];

pub(super) fn add(plan: &mut Plan, random: &mut Random) {
    for (channel, kind) in [(Channel::A, Kind::Dynamic), (Channel::B, Kind::Static)] {
        let scene = Scene::fair(random, channel, kind);
        PAIRS.iter().for_each(|pair| add_unsound(plan, random, &scene, 0, *pair));
        for pair in PAIRS.into_iter().chain([ChecksumPair::NONE]) {
            add_kept(plan, random, channel, kind, pair);
        }
    }
    for bit in 0..32 {
        let number = 1 << bit;
        add_bit(plan, random, ChecksumPair { found: number, expected: 0 });
        add_bit(plan, random, ChecksumPair { found: 0, expected: number });
    }
    for marks in 0..64 {
        add_marks(plan, random, with_conflict(marks));
    }
}

/// Every event is refused, and the numbers stay as they were put.
fn add_unsound(plan: &mut Plan, random: &mut Random, scene: &Scene, marks: u8, checksums: ChecksumPair) {
    let unsound = StatusNumbers { checksums, ..scene.marked(random, marks) };
    put(plan, &unsound);
    show(plan, &unsound);
    play_refused(plan, &unsound, scene.good(random).bytes());
}

/// Behind a syntax error, which told these checksums or none: whatever happens, they stay.
fn add_kept(plan: &mut Plan, random: &mut Random, channel: Channel, kind: Kind, checksums: ChecksumPair) {
    let scene = Scene::fair(random, channel, kind);
    let before = StatusNumbers { marks: Mark::SyntaxError.bit(), checksums, ..scene.fresh() };
    for refusal in [Refusal::HeaderChecksum, Refusal::FrameChecksum, Refusal::TooFewBytes, Refusal::Size] {
        let refused = Happening::Refused(scene.refused(random, refusal));
        play_put(plan, &before, &[refused]);
    }
    for sort in [Sort::Good, Sort::Missing, Sort::Boundary, Sort::OwnSending] {
        let happened = Happening::any(random, &scene, sort);
        play_put(plan, &before, &[happened]);
    }
}

/// One bit of one number, without "syntax error" and with it.
fn add_bit(plan: &mut Plan, random: &mut Random, checksums: ChecksumPair) {
    let scene = Scene::any(random);
    add_unsound(plan, random, &scene, 0, checksums);
    let sound = StatusNumbers { marks: Mark::SyntaxError.bit(), checksums, ..scene.fresh() };
    let refused = Happening::Refused(scene.refused(random, Refusal::FrameChecksum));
    for event in [refused, Happening::Boundary, Happening::OwnSending] {
        play_put(plan, &sound, &[event]);
    }
}

/// All other marks change nothing in that.
fn add_marks(plan: &mut Plan, random: &mut Random, marks: u8) {
    let (scene, checksums) = (Scene::any(random), ChecksumPair::some(random));
    if marks & Mark::SyntaxError.bit() == 0 {
        return add_unsound(plan, random, &scene, marks, checksums);
    }
    let sound = StatusNumbers { checksums, ..scene.marked(random, marks) };
    let refused = Happening::Refused(scene.refused(random, Refusal::HeaderChecksum));
    for event in [refused, Happening::Boundary, Happening::OwnSending] {
        play_put(plan, &sound, &[event]);
    }
}
