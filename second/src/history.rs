//! What happens in a slot, and what its status must show afterwards: told from the whole history at once.

use crate::channel::Channel;
use crate::checksum_pair::ChecksumPair;
use crate::draft::Draft;
use crate::marks::Mark;
use crate::plan::{Expected, Plan};
use crate::random::Random;
use crate::reason::{Reason, Test};
use crate::refusal::{Refusal, READ_ORDER};
use crate::scene::Scene;
use crate::script::Command;
use crate::status_numbers::{HeaderNumbers, StatusNumbers};
use crate::unreadable::Unreadable;

/// Sorts of what can happen in a slot.
#[derive(Clone, Copy, Debug, PartialEq, Eq, PartialOrd, Ord)]
pub enum Sort {
    NoBytes,
    Refused,
    Missing,
    Good,
    Boundary,
    OwnSending,
}

impl Sort {
    pub const ALL: [Sort; 6] =
        [Sort::NoBytes, Sort::Refused, Sort::Missing, Sort::Good, Sort::Boundary, Sort::OwnSending];

    pub const ARRIVALS: [Sort; 4] = [Sort::NoBytes, Sort::Refused, Sort::Missing, Sort::Good];
}

#[derive(Clone, Debug)]
pub enum Happening {
    /// Bytes that can't be read.
    Refused(Unreadable),
    /// A frame with the first test that it misses.
    Missing(Test, Draft),
    Good(Draft),
    Boundary,
    OwnSending,
}

impl Happening {
    pub fn any(random: &mut Random, scene: &Scene, sort: Sort) -> Happening {
        match sort {
            Sort::NoBytes => Happening::Refused(no_bytes(scene.channel)),
            Sort::Refused => Happening::Refused(any_refused(random, scene)),
            Sort::Missing => {
                let test = random.pick(scene.kind.tests());
                Happening::missing(random, scene, &[test])
            }
            Sort::Good => Happening::Good(scene.good(random)),
            Sort::Boundary => Happening::Boundary,
            Sort::OwnSending => Happening::OwnSending,
        }
    }

    /// A frame that misses the named tests, which stand in their order.
    pub fn missing(random: &mut Random, scene: &Scene, tests: &[Test]) -> Happening {
        Happening::Missing(tests[0], scene.missing(random, tests))
    }

    pub fn command(&self) -> Command {
        match self {
            Happening::Refused(unreadable) => Command::Arrived(unreadable.bytes.clone()),
            Happening::Missing(_, draft) | Happening::Good(draft) => Command::Arrived(draft.bytes()),
            Happening::Boundary => Command::Boundary,
            Happening::OwnSending => Command::OwnSending,
        }
    }

    /// What it sets whatever happened before; "content error" stands where a reason does.
    fn mark(&self) -> Option<Mark> {
        match self {
            Happening::Refused(_) => Some(Mark::SyntaxError),
            Happening::Missing(..) => None,
            Happening::Good(_) => Some(Mark::Valid),
            Happening::Boundary => Some(Mark::BoundaryViolation),
            Happening::OwnSending => Some(Mark::OwnSending),
        }
    }

    /// 02 C-18: what a syntax error tells.
    fn checksums(&self) -> Option<ChecksumPair> {
        match self {
            Happening::Refused(unreadable) => Some(unreadable.checksums),
            _ => None,
        }
    }

    fn tested(&self) -> Option<Tested> {
        match self {
            Happening::Missing(test, _) => Some(Tested::Missed(*test)),
            Happening::Good(_) => Some(Tested::Good),
            _ => None,
        }
    }
}

/// What the tests say of a frame.
#[derive(Clone, Copy, Debug, PartialEq, Eq)]
pub enum Tested {
    /// The first test that it misses.
    Missed(Test),
    Good,
}

fn no_bytes(channel: Channel) -> Unreadable {
    Unreadable::silent(Refusal::TooFewBytes, channel, Vec::new())
}

/// All read refusals but that of a channel, which a slot can't meet; no bytes are a sort of their own.
fn any_refused(random: &mut Random, scene: &Scene) -> Unreadable {
    let refusal = random.pick(&READ_ORDER[1..]);
    let unreadable = scene.refused(random, refusal);
    if unreadable.bytes.is_empty() {
        return Unreadable { bytes: random.bytes(1), ..unreadable };
    }
    unreadable
}

/// 01 "Judging a slot": the marks with "conflict" as the others ask for it.
pub fn with_conflict(marks: u8) -> u8 {
    let arrived = Mark::SyntaxError.bit() | Mark::ContentError.bit() | Mark::Valid.bit();
    let both = marks & Mark::OwnSending.bit() != 0 && marks & arrived != 0;
    let others = marks & !Mark::Conflict.bit();
    if both {
        others | Mark::Conflict.bit()
    } else {
        others
    }
}

/// What must be shown after a history that starts from a sound status.
pub fn demanded(before: &StatusNumbers, history: &[Happening]) -> StatusNumbers {
    let before = before.looked_at();
    let reason = Reason::from_number(before.reason).or(first_reason(&frames(&before, history)));
    let content_error = reason.map(|_| Mark::ContentError);
    let set = history.iter().filter_map(Happening::mark).chain(content_error);
    let marks = set.fold(before.marks, |marks, mark| marks | mark.bit());
    let (marks, reason) = (with_conflict(marks), reason.map_or(0, Reason::number));
    let after = StatusNumbers { marks, reason, checksums: first_told(&before, history), ..before };
    let first_good = history.iter().find_map(|happening| match happening {
        Happening::Good(draft) if !before.kept => Some(HeaderNumbers::of(&draft.fields())),
        _ => None,
    });
    first_good.map_or(after, |header| StatusNumbers { kept: true, header, ..after })
}

/// 02 C-18: what the first syntax error tells. One that stood before is the first, whatever it told.
fn first_told(before: &StatusNumbers, history: &[Happening]) -> ChecksumPair {
    if before.marks & Mark::SyntaxError.bit() != 0 {
        return before.checksums;
    }
    history.iter().find_map(Happening::checksums).unwrap_or(ChecksumPair::NONE)
}

/// The frames that could be read, in their order; one that is kept from before was good.
fn frames(before: &StatusNumbers, history: &[Happening]) -> Vec<Tested> {
    let earlier = before.kept.then_some(Tested::Good);
    earlier.into_iter().chain(history.iter().filter_map(Happening::tested)).collect()
}

/// 02 C-15, over all frames of a slot: every one but the first good one has a reason, and the slot's is the first of them.
pub fn first_reason(frames: &[Tested]) -> Option<Reason> {
    let first_good = frames.iter().position(|frame| *frame == Tested::Good);
    let first_marked = (0..frames.len()).find(|place| Some(*place) != first_good)?;
    match frames[first_marked] {
        Tested::Missed(test) => Some(Reason::Missed(test)),
        Tested::Good => Some(Reason::SecondGoodFrame),
    }
}

/// Opens a slot and plays a history in it.
pub fn play_opened(plan: &mut Plan, scene: &Scene, history: &[Happening]) {
    plan.add(scene.open(), Expected::line("slot 0 0"));
    play(plan, &scene.fresh(), history);
}

/// Puts a sound status and plays a history on it.
pub fn play_put(plan: &mut Plan, before: &StatusNumbers, history: &[Happening]) {
    put(plan, before);
    play(plan, before, history);
}

pub fn put(plan: &mut Plan, numbers: &StatusNumbers) {
    plan.add(Command::PutStatus(*numbers), Expected::line("status put"));
}

pub fn show(plan: &mut Plan, numbers: &StatusNumbers) {
    plan.add(Command::Show, Expected::Status(numbers.looked_at()));
}

/// Every event of the history, and the status after each.
pub fn play(plan: &mut Plan, before: &StatusNumbers, history: &[Happening]) {
    for (place, happening) in history.iter().enumerate() {
        plan.add(happening.command(), Expected::line("event 0"));
        show(plan, &demanded(before, &history[..=place]));
    }
}

/// Every event is refused on an unsound status, and leaves it as it is.
pub fn play_refused(plan: &mut Plan, unsound: &StatusNumbers, frame: Vec<u8>) {
    for command in [Command::Arrived(frame), Command::Boundary, Command::OwnSending] {
        plan.add(command, Expected::Refused(Refusal::NotSound));
        show(plan, unsound);
    }
}

#[cfg(test)]
mod tests {
    use super::*;
    use crate::scene::Kind;

    #[test]
    fn demands_by_hand() {
        let mut random = Random::from_seed(5);
        let scene = Scene::fair(&mut random, Channel::B, Kind::Dynamic);
        let good = [scene.good(&mut random), scene.good(&mut random)];
        let missing = |test, draft: &Draft| Happening::Missing(test, draft.clone());
        let history = [
            Happening::Good(good[0].clone()),
            missing(Test::DynamicNull, &good[0]),
            missing(Test::Id, &good[0]),
            Happening::OwnSending,
            Happening::Good(good[1].clone()),
        ];
        let header = HeaderNumbers::of(&good[0].fields());
        let after = StatusNumbers { marks: 58, reason: 5, kept: true, header, ..scene.fresh() };
        assert_eq!(demanded(&scene.fresh(), &history), after);
        assert_eq!(demanded(&scene.fresh(), &history[..2]), StatusNumbers { marks: 18, ..after });
        assert_eq!(demanded(&after, &[Happening::Boundary]), StatusNumbers { marks: 62, ..after });
    }

    /// 02 C-15: the second good frame gives (f), equal to the first or not, also behind one that was put; the first reason
    /// stays.
    #[test]
    fn second_frames_by_hand() {
        let mut random = Random::from_seed(6);
        let scene = Scene::fair(&mut random, Channel::A, Kind::Static);
        let [first, other] = [(); 2].map(|_| scene.good(&mut random));
        let header = HeaderNumbers::of(&first.fields());
        let missing = || Happening::Missing(Test::Cycle, other.clone());
        let (first, other) = (|| Happening::Good(first.clone()), || Happening::Good(other.clone()));
        let one = StatusNumbers { marks: 16, kept: true, header, ..scene.fresh() };
        let two = StatusNumbers { marks: 18, reason: 6, ..one };
        let missed = StatusNumbers { reason: 2, ..two };
        let sent = StatusNumbers { marks: 58, ..two };
        let cases: [(StatusNumbers, &[Happening], StatusNumbers); 11] = [
            (scene.fresh(), &[first()], one),
            (scene.fresh(), &[first(), first()], two),
            (scene.fresh(), &[first(), other()], two),
            (scene.fresh(), &[first(), other(), first()], two),
            (scene.fresh(), &[first(), other(), missing()], two),
            (scene.fresh(), &[first(), missing(), other()], missed),
            (scene.fresh(), &[missing(), first(), other()], missed),
            (scene.fresh(), &[first(), Happening::OwnSending, other()], sent),
            (one, &[other(), missing()], two),
            (two, &[missing(), other()], two),
            (missed, &[other()], missed),
        ];
        for (before, history, after) in cases {
            assert_eq!(demanded(&before, history), after);
        }
    }

    /// 02 C-18: what the first syntax error told stays, also where that was nothing, and also one that was put; frames and
    /// everything else leave it.
    #[test]
    fn first_checksums_by_hand() {
        let mut random = Random::from_seed(8);
        let scene = Scene::fair(&mut random, Channel::B, Kind::Static);
        let telling = |found, expected| {
            let checksums = ChecksumPair { found, expected };
            Happening::Refused(Unreadable { checksums, ..no_bytes(Channel::B) })
        };
        let (silent, good) = (telling(0, 0), Happening::Good(scene.good(&mut random)));
        let put = StatusNumbers { marks: 1, checksums: ChecksumPair { found: 5, expected: 6 }, ..scene.fresh() };
        let put_without = StatusNumbers { marks: 1, ..scene.fresh() };
        let cases: [(StatusNumbers, &[Happening], [u32; 2]); 9] = [
            (scene.fresh(), &[good.clone(), Happening::OwnSending], [0, 0]),
            (scene.fresh(), &[telling(1, 2)], [1, 2]),
            (scene.fresh(), &[telling(1, 2), telling(3, 4)], [1, 2]),
            (scene.fresh(), &[telling(1, 2), silent.clone()], [1, 2]),
            (scene.fresh(), &[silent.clone(), telling(3, 4)], [0, 0]),
            (scene.fresh(), &[good.clone(), telling(3, 4), good.clone(), Happening::Boundary], [3, 4]),
            (put, &[telling(1, 2)], [5, 6]),
            (put, &[good, silent], [5, 6]),
            (put_without, &[telling(1, 2)], [0, 0]),
        ];
        for (before, history, [found, expected]) in cases {
            assert_eq!(demanded(&before, history).checksums, ChecksumPair { found, expected });
        }
    }

    #[test]
    fn marks_with_their_conflict() {
        for (marks, right) in [(0, 0), (8, 0), (33, 41), (34, 42), (48, 56), (36, 36), (44, 36), (59, 59), (27, 19)] {
            assert_eq!(with_conflict(marks), right);
        }
    }
}
