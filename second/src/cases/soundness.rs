//! Statuses with one clause of 01's soundness broken, each beside a sound one that differs in that clause alone.

use crate::faults::{WRONG_CYCLES, WRONG_IDS};
use crate::frame::{Fields, Indicators, HIGHEST_CYCLE, HIGHEST_ID, MOST_WORDS};
use crate::history::{play_put, play_refused, put, show, with_conflict, Happening};
use crate::marks::Mark;
use crate::plan::Plan;
use crate::random::Random;
use crate::reason::{Reason, Test};
use crate::scene::{Kind, Scene};
use crate::settings::{self, FIELDS, STATIC_SLOTS, STATIC_WORDS};
use crate::status_numbers::{HeaderNumbers, StatusNumbers};

/// The slot is that of the sound status.
struct Pair {
    slot: Scene,
    sound: StatusNumbers,
    unsound: StatusNumbers,
}

pub fn add(plan: &mut Plan, random: &mut Random) {
    let mut pairs = Vec::new();
    for field in 1..=FIELDS {
        pairs.extend(settings(random, field));
    }
    pairs.extend(slots_and_cycles(random));
    for kind in Kind::BOTH {
        pairs.extend(reasons(random, kind));
        pairs.extend(kept_or_not(random, kind));
        pairs.extend(kept_numbers(random, kind));
        pairs.extend(kept_misses(random, kind));
    }
    pairs.extend(kept_across_the_border(random));
    pairs.extend(kept_like_the_slot(random));
    pairs.extend(kept_checksums(random));
    pairs.push(kept_startup(random));
    for marks in 0..64 {
        pairs.extend(conflicts(random, marks));
    }
    for pair in &pairs {
        add_unsound(plan, random, pair);
        add_repaired(plan, random, pair);
    }
    for kind in Kind::BOTH {
        add_reasons_beside_valid(plan, random, kind);
    }
}

/// Every event is refused and leaves the status as it was put.
fn add_unsound(plan: &mut Plan, random: &mut Random, pair: &Pair) {
    let frame = pair.slot.good(random).bytes();
    put(plan, &pair.unsound);
    show(plan, &pair.unsound);
    play_refused(plan, &pair.unsound, frame);
}

fn add_repaired(plan: &mut Plan, random: &mut Random, pair: &Pair) {
    for event in [Happening::Good(pair.slot.good(random)), Happening::Boundary, Happening::OwnSending] {
        play_put(plan, &pair.sound, &[event]);
    }
}

/// Values out of range, each beside the end of the range that is nearest.
fn settings(random: &mut Random, field: usize) -> Vec<Pair> {
    let mut pairs = Vec::new();
    for (wrong, right) in settings::beyond(field) {
        let fair = Scene::first_slot(random);
        let slot = Scene { settings: fair.settings.with_field(field, right), ..fair };
        let sound = slot.fresh();
        let unsound = StatusNumbers { settings: sound.settings.with_field(field, wrong), ..sound };
        pairs.push(Pair { slot, sound, unsound });
    }
    pairs
}

/// The end of the range of slots that is nearest, and its kind.
fn nearest(wrong: u16) -> (u16, Kind) {
    if wrong == 0 {
        return (1, Kind::Static);
    }
    (HIGHEST_ID, Kind::Dynamic)
}

fn slots_and_cycles(random: &mut Random) -> Vec<Pair> {
    let mut pairs = Vec::new();
    for wrong in WRONG_IDS {
        let (right, kind) = nearest(wrong);
        let slot = Scene { slot: right, ..Scene::any_of(random, kind) };
        let unsound = StatusNumbers { slot: wrong, ..slot.fresh() };
        pairs.push(Pair { slot, sound: slot.fresh(), unsound });
    }
    for wrong in WRONG_CYCLES {
        let slot = Scene { cycle: HIGHEST_CYCLE, ..Scene::any(random) };
        let unsound = StatusNumbers { cycle: wrong, ..slot.fresh() };
        pairs.push(Pair { slot, sound: slot.fresh(), unsound });
    }
    pairs
}

/// A reason and "content error" apart; together each of (a) to (e) is sound, also one that this kind of slot can't come
/// by. (f) asks for more, and has its cases among the second frames.
fn reasons(random: &mut Random, kind: Kind) -> Vec<Pair> {
    let slot = Scene::any_of(random, kind);
    let with = |marks, reason| StatusNumbers { marks, reason, ..slot.fresh() };
    let content_error = Mark::ContentError.bit();
    let mut pairs = Vec::new();
    for reason in Test::IN_ORDER.map(Reason::Missed) {
        let (sound, unsound) = (with(content_error, reason.number()), with(0, reason.number()));
        pairs.push(Pair { slot, sound, unsound });
    }
    pairs.push(Pair { slot, sound: slot.fresh(), unsound: with(content_error, 0) });
    pairs
}

/// The status in which this header is kept.
fn holding(slot: &Scene, header: HeaderNumbers) -> StatusNumbers {
    StatusNumbers { marks: Mark::Valid.bit(), kept: true, header, ..slot.fresh() }
}

fn good_header(random: &mut Random, slot: &Scene) -> HeaderNumbers {
    HeaderNumbers::of(&slot.good(random).fields())
}

/// Beside a kept frame each reason is sound, (f) among them.
fn add_reasons_beside_valid(plan: &mut Plan, random: &mut Random, kind: Kind) {
    for reason in Reason::ALL {
        let slot = Scene::any_of(random, kind);
        let marks = Mark::Valid.bit() | Mark::ContentError.bit();
        let kept = holding(&slot, good_header(random, &slot));
        let before = StatusNumbers { marks, reason: reason.number(), ..kept };
        let good = Happening::Good(slot.good(random));
        play_put(plan, &before, &[good, Happening::Boundary, Happening::OwnSending]);
    }
}

/// "Valid" and a kept frame apart; the frame's numbers stand behind the switch in either case.
fn kept_or_not(random: &mut Random, kind: Kind) -> Vec<Pair> {
    let slot = Scene::any_of(random, kind);
    let sound = holding(&slot, good_header(random, &slot));
    let without_valid = StatusNumbers { marks: 0, ..sound };
    let without_kept = StatusNumbers { kept: false, ..sound };
    vec![Pair { slot, sound, unsound: without_valid }, Pair { slot, sound, unsound: without_kept }]
}

/// Numbers that no read gives, their checksum right. Most have the right number in their lowest bits.
fn kept_numbers(random: &mut Random, kind: Kind) -> Vec<Pair> {
    let slot = Scene::any_of(random, kind);
    let good = good_header(random, &slot);
    let [id_0, id, far_id] = WRONG_IDS.map(|id| HeaderNumbers { id, ..good });
    let [cycle, far_cycle] = WRONG_CYCLES.map(|cycle| HeaderNumbers { cycle, ..good });
    let same_id = HeaderNumbers { id: good.id + HIGHEST_ID + 1, ..good };
    let same_cycle = HeaderNumbers { cycle: good.cycle + HIGHEST_CYCLE + 1, ..good };
    let [words, same_words, far_words] =
        [MOST_WORDS + 1, good.words + MOST_WORDS + 1, u8::MAX].map(|words| HeaderNumbers { words, ..good });
    let wrong = [id_0, id, far_id, same_id, words, same_words, far_words, cycle, same_cycle, far_cycle];
    let sound = holding(&slot, good);
    wrong.map(|wrong| Pair { slot, sound, unsound: holding(&slot, wrong.with_right_checksum()) }).into()
}

/// Frames that can be read but miss a test of the slot.
fn kept_misses(random: &mut Random, kind: Kind) -> Vec<Pair> {
    let mut pairs = Vec::new();
    for test in kind.tests() {
        let slot = Scene::any_of(random, kind);
        let sound = holding(&slot, good_header(random, &slot));
        let wrong = slot.missing(random, &[*test]).fields();
        let mut headers = vec![wrong];
        if *test == Test::DynamicSync {
            // A startup frame and one that isn't.
            let indicators = Indicators { startup: !wrong.indicators.startup, ..wrong.indicators };
            headers.push(Fields { indicators, ..wrong }.with_right_checksum());
        }
        let unsound = headers.iter().map(|fields| holding(&slot, HeaderNumbers::of(fields)));
        pairs.extend(unsound.map(|unsound| Pair { slot, sound, unsound }));
    }
    pairs
}

/// One kept frame, and field 11 one more or less: what is sound in a slot of one kind misses a test in the other.
fn kept_across_the_border(random: &mut Random) -> Vec<Pair> {
    let cases = [
        (Kind::Dynamic, Test::StaticWords, 0b00100),
        (Kind::Static, Test::DynamicSync, 0b01100),
        (Kind::Static, Test::DynamicNull, 0b00000),
    ];
    let mut pairs = Vec::new();
    for (kind, missed, look) in cases {
        let (last_static, moved) = if kind == Kind::Static { (500, 499) } else { (499, 500) };
        let fair = Scene::any_of(random, kind);
        let settings = fair.settings.with_field(STATIC_WORDS, 2).with_field(STATIC_SLOTS, last_static);
        let slot = Scene { slot: 500, settings, ..fair };
        let words = if missed == Test::StaticWords { 3 } else { 2 };
        let good = HeaderNumbers { flags: look, words, ..good_header(random, &slot) }.with_right_checksum();
        let sound = holding(&slot, good);
        let unsound = StatusNumbers { settings: settings.with_field(STATIC_SLOTS, moved), ..sound };
        pairs.push(Pair { slot, sound, unsound });
    }
    pairs
}

/// Slot or cycle out of range together with the kept frame's, so that no test is missed.
fn kept_like_the_slot(random: &mut Random) -> Vec<Pair> {
    let mut pairs = Vec::new();
    for wrong in [0, HIGHEST_ID + 1] {
        let (right, kind) = nearest(wrong);
        let slot = Scene { slot: right, ..Scene::any_of(random, kind) };
        let good = good_header(random, &slot);
        let kept = HeaderNumbers { id: wrong, ..good }.with_right_checksum();
        let unsound = StatusNumbers { slot: wrong, ..holding(&slot, kept) };
        pairs.push(Pair { slot, sound: holding(&slot, good), unsound });
    }
    let slot = Scene { cycle: HIGHEST_CYCLE, ..Scene::any(random) };
    let good = good_header(random, &slot);
    let cycle = HIGHEST_CYCLE + 1;
    let unsound = StatusNumbers { cycle, ..holding(&slot, HeaderNumbers { cycle, ..good }) };
    pairs.push(Pair { slot, sound: holding(&slot, good), unsound });
    pairs
}

/// Every bit of the number wrong, the five that no header has included.
fn kept_checksums(random: &mut Random) -> Vec<Pair> {
    let wrong_in = |bit: u8| {
        let slot = Scene::any(random);
        let good = good_header(random, &slot);
        let wrong = HeaderNumbers { checksum: good.checksum ^ 1 << bit, ..good };
        let (sound, unsound) = (holding(&slot, good), holding(&slot, wrong));
        Pair { slot, sound, unsound }
    };
    (0..16).map(wrong_in).collect()
}

/// In a static slot, as in a dynamic one test (d) is missed too.
fn kept_startup(random: &mut Random) -> Pair {
    let slot = Scene::any_of(random, Kind::Static);
    let good = slot.good(random).fields();
    let with = |sync| {
        let indicators = Indicators { sync, startup: true, ..good.indicators };
        let header = HeaderNumbers { flags: indicators.flags(), ..HeaderNumbers::of(&good) };
        holding(&slot, header.with_right_checksum())
    };
    Pair { slot, sound: with(true), unsound: with(false) }
}

/// Marks with "conflict" against the others, reason and frame beside them as they ask for.
fn conflicts(random: &mut Random, marks: u8) -> Option<Pair> {
    let right = with_conflict(marks);
    if right == marks {
        return None;
    }
    let slot = Scene::any(random);
    let sound = slot.marked(random, right);
    Some(Pair { slot, sound, unsound: StatusNumbers { marks, ..sound } })
}
