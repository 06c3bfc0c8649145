//! What a script says of a status but nobody looks at: unnamed bits, and a header behind a kept switch of 0.

use crate::history::{play, put, show, with_conflict, Happening, Sort};
use crate::marks::{Mark, NAMED_MARKS};
use crate::plan::{Expected, Plan};
use crate::random::Random;
use crate::refusal::Refusal;
use crate::scene::Scene;
use crate::script::Command;
use crate::status_numbers::{HeaderNumbers, StatusNumbers};

pub fn add(plan: &mut Plan, random: &mut Random) {
    for bit in [6, 7] {
        add_marks(plan, random, bit);
    }
    for bit in [5, 6, 7] {
        add_flags(plan, random, bit);
    }
    for place in 0..5 {
        add_behind(plan, random, place);
    }
}

/// Shown without what isn't looked at, and judged without it: a sound status takes an event of every sort.
fn add_sound(plan: &mut Plan, random: &mut Random, slot: &Scene, numbers: &StatusNumbers) {
    for sort in Sort::ALL {
        put(plan, numbers);
        show(plan, numbers);
        play(plan, numbers, &[Happening::any(random, slot, sort)]);
    }
}

fn add_unsound(plan: &mut Plan, numbers: &StatusNumbers) {
    put(plan, numbers);
    plan.add(Command::Boundary, Expected::Refused(Refusal::NotSound));
    show(plan, numbers);
}

fn add_marks(plan: &mut Plan, random: &mut Random, bit: u8) {
    for named in [0, NAMED_MARKS] {
        let slot = Scene::any(random);
        let sound = slot.marked(random, with_conflict(named));
        let numbers = StatusNumbers { marks: sound.marks | 1 << bit, ..sound };
        add_sound(plan, random, &slot, &numbers);
        // "Conflict" alone is never sound.
        add_unsound(plan, &StatusNumbers { marks: Mark::Conflict.bit() | 1 << bit, ..slot.fresh() });
    }
}

fn add_flags(plan: &mut Plan, random: &mut Random, bit: u8) {
    let slot = Scene::any(random);
    let sound = slot.marked(random, NAMED_MARKS);
    let header = HeaderNumbers { flags: sound.header.flags | 1 << bit, ..sound.header };
    add_sound(plan, random, &slot, &StatusNumbers { header, ..sound });
    add_unsound(plan, &StatusNumbers { header, marks: 0, ..sound });
}

/// One number of a frame that isn't kept, and all of them.
fn add_behind(plan: &mut Plan, random: &mut Random, place: usize) {
    const EVERY: HeaderNumbers = HeaderNumbers { flags: 255, id: 65535, words: 255, checksum: 65535, cycle: 255 };
    let none = HeaderNumbers::default();
    let one = [
        HeaderNumbers { flags: EVERY.flags, ..none },
        HeaderNumbers { id: EVERY.id, ..none },
        HeaderNumbers { words: EVERY.words, ..none },
        HeaderNumbers { checksum: EVERY.checksum, ..none },
        HeaderNumbers { cycle: EVERY.cycle, ..none },
    ];
    let slot = Scene::any(random);
    for header in [one[place], EVERY] {
        let numbers = StatusNumbers { header, ..slot.fresh() };
        add_sound(plan, random, &slot, &numbers);
    }
}
