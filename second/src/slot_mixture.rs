//! Slot commands at random: lifelike histories on slots that were opened and on statuses that were put.

use crate::checksum_pair::ChecksumPair;
use crate::draft::Draft;
use crate::faults::{faulty_opening, some_faults, wrong_value};
use crate::frame::Fields;
use crate::history::{with_conflict, Happening, Sort};
use crate::marks::Mark;
use crate::mixture::{any_size, damaged};
use crate::random::Random;
use crate::reason::{Reason, Test};
use crate::refusal::OPEN_SLOT_ORDER;
use crate::scene::Scene;
use crate::script::Command;
use crate::settings::{Settings, FIELDS};
use crate::status_numbers::{HeaderNumbers, StatusNumbers};
use crate::unreadable::Unreadable;

const MOST_EVENTS: usize = 8;

/// One slot from its opening on, or from a status put in its place; the status is shown after most events.
pub fn episode(random: &mut Random) -> Vec<Command> {
    let scene = Scene::any(random);
    let usual = scene.good(random);
    let mut commands = vec![start(random, &scene), Command::Show];
    let row = random.one_in(4);
    for _ in 0..random.between(1, MOST_EVENTS) {
        commands.push(if row { syntax_error(random, &scene, &usual) } else { event(random, &scene, &usual) });
        if !random.one_in(5) {
            commands.push(Command::Show);
        }
    }
    commands
}

/// Seven in ten are sound.
fn start(random: &mut Random, scene: &Scene) -> Command {
    match random.below(22) {
        0..=9 => scene.open(),
        10 | 11 => opening_with_some_faults(random),
        12..=16 => Command::PutStatus(sound(random, scene)),
        17..=19 => Command::PutStatus(changed(random, scene)),
        20 => Command::PutStatus(with_checksums_alone(random, scene)),
        _ => Command::PutStatus(wild(random)),
    }
}

fn opening_with_some_faults(random: &mut Random) -> Command {
    let faults = some_faults(random, &OPEN_SLOT_ORDER);
    Command::OpenSlot(faulty_opening(random, &faults))
}

/// Of the good frames half are the usual one, so that equal ones come behind each other (02 C-15).
fn event(random: &mut Random, scene: &Scene, usual: &Draft) -> Command {
    match random.below(22) {
        0..=2 => Happening::Good(usual.clone()).command(),
        3..=5 => Happening::Good(scene.good(random)).command(),
        6..=8 => frame_with_some_misses(random, scene),
        9 | 10 => {
            let good = scene.good(random);
            Command::Arrived(damaged(random, &good))
        }
        11 => Command::Arrived(scene.strange(random).bytes),
        12 => random_bytes(random),
        13 => Happening::any(random, scene, Sort::NoBytes).command(),
        14 | 15 => Happening::any(random, scene, Sort::Refused).command(),
        16 | 17 => Command::Boundary,
        18 | 19 => telling_checksums(random, scene),
        _ => Command::OwnSending,
    }
}

/// 02 C-18: one of a row of syntax errors, most of which tell checksums, with a good frame between them now and then.
fn syntax_error(random: &mut Random, scene: &Scene, usual: &Draft) -> Command {
    match random.below(8) {
        0 => Happening::Good(usual.clone()).command(),
        1 | 2 => Happening::any(random, scene, Sort::Refused).command(),
        _ => telling_checksums(random, scene),
    }
}

fn telling_checksums(random: &mut Random, scene: &Scene) -> Command {
    let good = scene.good(random);
    Command::Arrived(Unreadable::telling(random, good).bytes)
}

fn frame_with_some_misses(random: &mut Random, scene: &Scene) -> Command {
    let tests: Vec<Test> = scene.kind.tests().iter().copied().filter(|_| random.one_in(3)).collect();
    Command::Arrived(scene.missing(random, &tests).bytes())
}

fn random_bytes(random: &mut Random) -> Command {
    let size = any_size(random);
    Command::Arrived(random.bytes(size))
}

/// Any marks, with "conflict" right, with a reason and a frame where they ask for them, and with checksums where they
/// allow them.
fn sound(random: &mut Random, scene: &Scene) -> StatusNumbers {
    let marks = with_conflict(random.below(64) as u8);
    scene.marked(random, marks)
}

/// 02 C-18: sound but for checksums without "syntax error".
fn with_checksums_alone(random: &mut Random, scene: &Scene) -> StatusNumbers {
    let marks = random.below(64) as u8 & !Mark::SyntaxError.bit();
    StatusNumbers { checksums: ChecksumPair::some(random), ..scene.marked(random, with_conflict(marks)) }
}

/// A sound status with one thing changed, which leaves it sound or not.
fn changed(random: &mut Random, scene: &Scene) -> StatusNumbers {
    let sound = sound(random, scene);
    match random.below(13) {
        0 | 1 => StatusNumbers { marks: sound.marks ^ one_bit(random, 8) as u8, ..sound },
        2 => StatusNumbers { reason: any_reason(random), ..sound },
        3 => StatusNumbers { kept: !sound.kept, ..sound },
        4 => StatusNumbers { slot: sound.slot ^ one_bit(random, 12), ..sound },
        5 => StatusNumbers { cycle: sound.cycle ^ one_bit(random, 7) as u8, ..sound },
        6 => StatusNumbers { channel: sound.channel.other(), ..sound },
        7 => StatusNumbers { settings: with_other_field(random, sound.settings), ..sound },
        8 => StatusNumbers { header: with_other_number(random, sound.header), ..sound },
        9 => StatusNumbers { header: with_other_number(random, sound.header).with_right_checksum(), ..sound },
        10 => StatusNumbers { header: HeaderNumbers::of(&missing_one(random, scene)), ..sound },
        11 => StatusNumbers { checksums: ChecksumPair::some(random), ..sound },
        _ => StatusNumbers { header: HeaderNumbers::of(&scene.good(random).fields()), ..sound },
    }
}

/// None or any, (f) as often as all others: by 02 C-15 it asks for "valid" as well.
fn any_reason(random: &mut Random) -> u8 {
    if random.coin() {
        return Reason::SecondGoodFrame.number();
    }
    random.between(0, Reason::ALL.len()) as u8
}

fn missing_one(random: &mut Random, scene: &Scene) -> Fields {
    let test = random.pick(scene.kind.tests());
    scene.missing(random, &[test]).fields()
}

fn one_bit(random: &mut Random, width: usize) -> u16 {
    1 << random.below(width)
}

/// A field at another value, in its range or out of it.
fn with_other_field(random: &mut Random, settings: Settings) -> Settings {
    let field = random.between(1, FIELDS);
    let value = if random.coin() { wrong_value(random, field) } else { Scene::any(random).settings.field(field) };
    settings.with_field(field, value)
}

fn with_other_number(random: &mut Random, header: HeaderNumbers) -> HeaderNumbers {
    match random.below(5) {
        0 => HeaderNumbers { flags: header.flags ^ one_bit(random, 8) as u8, ..header },
        1 => HeaderNumbers { id: header.id ^ one_bit(random, 12), ..header },
        2 => HeaderNumbers { words: header.words ^ one_bit(random, 8) as u8, ..header },
        3 => HeaderNumbers { checksum: header.checksum ^ one_bit(random, 16), ..header },
        _ => HeaderNumbers { cycle: header.cycle ^ one_bit(random, 8) as u8, ..header },
    }
}

/// Every number at random, the settings in range or not.
fn wild(random: &mut Random) -> StatusNumbers {
    let scene = Scene::any(random);
    let fields = [(); FIELDS].map(|_| random.below(1 << 32) as u32);
    let settings = if random.coin() { scene.settings } else { Settings { fields, ..scene.settings } };
    let header = HeaderNumbers {
        flags: random.below(256) as u8,
        id: random.below(0x1_0000) as u16,
        words: random.below(256) as u8,
        checksum: random.below(0x1_0000) as u16,
        cycle: random.below(256) as u8,
    };
    StatusNumbers {
        settings,
        channel: scene.channel,
        slot: random.below(0x1_0000) as u16,
        cycle: random.below(256) as u8,
        marks: random.below(256) as u8,
        reason: any_reason(random),
        kept: random.coin(),
        header,
        checksums: ChecksumPair::any(random),
    }
}

#[cfg(test)]
mod tests {
    use std::collections::BTreeMap;

    use super::*;
    use crate::answer::Answer;
    use crate::frame;
    use crate::refused::Refused;
    use crate::replay::{Outcome, Replay};

    /// At least half of the events are accepted, and some of every sort are refused.
    #[test]
    fn most_events_are_accepted() {
        let mut random = Random::from_seed(9);
        let mut script = Vec::new();
        for _ in 0..300 {
            episode(&mut random).iter().for_each(|command| command.append_to(&mut script));
        }
        let lines: Vec<String> = Replay::of(&script).map(|outcome| outcome.line()).collect();
        let count = |line: &str| lines.iter().filter(|other| *other == line).count();
        assert!(count("event 0") > count("event 23"));
        assert!(count("event 23") > 100);
        assert!(lines.iter().all(|line| !line.starts_with("script error")));
    }

    /// 02 C-15: (f) is put with "valid" and without it, equal frames arrive twice and three times, and (f) is shown.
    #[test]
    fn second_frames_turn_up() {
        let mut random = Random::from_seed(15);
        let episodes: Vec<Vec<Command>> = (0..2_000).map(|_| episode(&mut random)).collect();
        let put = |valid: bool| episodes.iter().flatten().filter(|command| puts_f(command, valid)).count();
        assert!(put(true) > 20 && put(false) > 20);
        let arrived = |times| episodes.iter().filter(|commands| most_equal_arrivals(commands) >= times).count();
        assert!(arrived(2) > 100 && arrived(3) > 20);
        let mut script = Vec::new();
        episodes.iter().flatten().for_each(|command| command.append_to(&mut script));
        assert!(Replay::of(&script).filter(shows_f).count() > 500);
    }

    /// 02 C-18: checksums are put that alone make a status unsound, the one found, the one expected or both of them, and
    /// others that a syntax error makes sound.
    #[test]
    fn checksums_are_put_everywhere() {
        let mut random = Random::from_seed(18);
        let mut counts = BTreeMap::new();
        for _ in 0..4_000 {
            let scene = Scene::any(&mut random);
            let Command::PutStatus(put) = start(&mut random, &scene) else {
                continue;
            };
            let [found, expected] = [put.checksums.found, put.checksums.expected].map(|checksum| checksum > 0);
            let otherwise = StatusNumbers { checksums: ChecksumPair::NONE, ..put }.status().is_sound();
            let sound = put.status().is_sound();
            *counts.entry((found, expected, otherwise, sound)).or_insert(0) += 1;
        }
        for (found, expected) in [(true, false), (false, true), (true, true)] {
            for sound in [false, true] {
                assert!(counts[&(found, expected, true, sound)] > 20, "{counts:?}");
            }
        }
    }

    /// In slots that were opened: the numbers of the first two arrivals, 0 being a frame.
    #[test]
    fn syntax_errors_in_every_order() {
        let mut random = Random::from_seed(19);
        let mut orders = BTreeMap::new();
        for _ in 0..8_000 {
            let commands = episode(&mut random);
            let Command::OpenSlot(opening) = &commands[0] else {
                continue;
            };
            let numbers = commands.iter().filter_map(|command| match command {
                Command::Arrived(bytes) => {
                    Some(frame::read(opening.channel, bytes).map_or_else(Refused::number, |_| 0))
                }
                _ => None,
            });
            let first: Vec<u8> = numbers.take(2).collect();
            *orders.entry(first).or_insert(0) += 1;
        }
        for order in [[4, 8], [8, 4], [4, 4], [8, 8], [8, 0], [4, 0], [0, 8], [2, 4], [3, 8], [4, 2]] {
            assert!(orders.get(&order[..]).is_some_and(|count| *count > 8), "{order:?} of {orders:?}");
        }
    }

    fn puts_f(command: &Command, valid: bool) -> bool {
        matches!(command, Command::PutStatus(put) if put.reason == 6 && (put.marks & Mark::Valid.bit() != 0) == valid)
    }

    fn shows_f(outcome: &Outcome) -> bool {
        matches!(outcome, Outcome::Answered(_, Answer::Shown(_, status)) if status.reason == 6)
    }

    fn most_equal_arrivals(commands: &[Command]) -> usize {
        let arrived = |command: &&Command| matches!(command, Command::Arrived(bytes) if !bytes.is_empty());
        let arrivals: Vec<&Command> = commands.iter().filter(arrived).collect();
        arrivals.iter().map(|one| arrivals.iter().filter(|other| *other == one).count()).max().unwrap_or(0)
    }
}
