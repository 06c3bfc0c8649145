//! Commands at random, weighted so that every answer and every refusal turns up.

use std::iter;

use crate::bits;
use crate::channel::Channel;
use crate::clock_mixture;
use crate::draft::{fair_words, foreign_channel, Draft};
use crate::faults::{bench_of, encode_of, faulty_bench, faulty_encode, faulty_read, faulty_write, some_faults};
use crate::frame::{Indicators, MOST_WORDS};
use crate::random::Random;
use crate::reader_mixture;
use crate::refusal::{Refusal, ENCODE_ORDER, READ_ORDER, WRITE_ORDER};
use crate::script::{Command, Letters, OnChannel, LIMIT};
use crate::slot_mixture;
use crate::unreadable::Unreadable;

/// A whole script of random commands.
pub fn script(seed: u64, count: usize) -> Vec<u8> {
    let mut random = Random::from_seed(seed);
    script_of(iter::repeat_with(|| stretch(&mut random)).flatten().take(count))
}

/// The same of those that a player of frames knows.
pub fn frames_script(seed: u64, count: usize) -> Vec<u8> {
    let mut random = Random::from_seed(seed);
    let commands = iter::repeat_with(|| frame_command(&mut random));
    script_of(commands.filter(|command| Letters::Frames.know(command.letter())).take(count))
}

fn script_of(commands: impl Iterator<Item = Command>) -> Vec<u8> {
    let mut script = Vec::new();
    commands.for_each(|command| command.append_to(&mut script));
    script
}

/// What happens to one slot, in some cycles, or on the wire.
fn stretch(random: &mut Random) -> Vec<Command> {
    match random.below(5) {
        0 | 1 => clock_stretch(random),
        2 | 3 => slot_stretch(random),
        _ => reader_stretch(random),
    }
}

/// What happens to one slot, with as many frame commands strewn in, which leave the slot alone.
pub fn slot_stretch(random: &mut Random) -> Vec<Command> {
    let mut commands = Vec::new();
    for command in slot_mixture::episode(random) {
        commands.push(command);
        while random.coin() {
            commands.push(frame_command(random));
        }
    }
    commands
}

/// Cycles of a clock, with a few commands strewn in that leave it alone.
pub fn clock_stretch(random: &mut Random) -> Vec<Command> {
    let mut commands = Vec::new();
    for command in clock_mixture::episode(random) {
        commands.push(command);
        if random.one_in(16) {
            commands.push(frame_command(random));
        }
    }
    commands
}

/// Some readers of the wire, with a few commands strewn in that leave them alone.
pub fn reader_stretch(random: &mut Random) -> Vec<Command> {
    let mut commands = Vec::new();
    for _ in 0..random.between(1, 4) {
        for command in reader_mixture::episode(random) {
            commands.push(command);
            if random.one_in(8) {
                commands.push(frame_command(random));
            }
        }
    }
    commands
}

pub fn frame_command(random: &mut Random) -> Command {
    match random.below(34) {
        0 | 1 => any_checksum(random),
        2..=10 => Command::Read(any_frame(random)),
        11..=13 => read_with_some_faults(random),
        14..=19 => any_write(random),
        20..=23 => bench_of(&any_frame(random)),
        24 => bench_with_some_faults(random),
        25 => any_bench_input(random),
        26 | 27 => encode_with_some_faults(random),
        _ => any_encode(random),
    }
}

/// Bytes to be read on a channel: frames as a rule, good or damaged.
fn any_frame(random: &mut Random) -> OnChannel {
    match random.below(11) {
        0 | 1 => random_bytes(random),
        2 | 3 => true_frame(random),
        4..=6 => damaged_frame(random),
        7 => cut_or_extended(random),
        8 | 9 => wrong_checksum(random),
        _ => random_header(random),
    }
}

/// Small as a rule, so that scripts stay short.
pub fn any_size(random: &mut Random) -> usize {
    if random.one_in(8) {
        return random.between(0, LIMIT);
    }
    random.between(0, 40)
}

/// A channel's number as a rule, a foreign one now and then.
fn any_channel(random: &mut Random) -> u8 {
    if random.one_in(12) {
        return foreign_channel(random);
    }
    random.pick(&Channel::BOTH).number()
}

fn fair_draft(random: &mut Random) -> Draft {
    let channel = random.pick(&Channel::BOTH);
    let words = fair_words(random);
    Draft::fair(random, channel, words)
}

fn any_checksum(random: &mut Random) -> Command {
    let size = any_size(random);
    Command::checksum(any_channel(random), &random.bytes(size))
}

fn random_bytes(random: &mut Random) -> OnChannel {
    let size = any_size(random);
    OnChannel { channel: any_channel(random), bytes: random.bytes(size) }
}

/// A good frame, on its own channel or by chance on another.
fn true_frame(random: &mut Random) -> OnChannel {
    let draft = fair_draft(random);
    let other = random.one_in(4);
    let channel = if other { any_channel(random) } else { draft.channel.number() };
    OnChannel { channel, bytes: draft.bytes() }
}

fn damaged_frame(random: &mut Random) -> OnChannel {
    let draft = fair_draft(random);
    OnChannel { channel: draft.channel.number(), bytes: damaged(random, &draft) }
}

/// The bytes of a frame with some of their bits turned over.
pub fn damaged(random: &mut Random, draft: &Draft) -> Vec<u8> {
    let mut bytes = draft.bytes();
    for _ in 0..random.between(1, 6) {
        let place = random.below(8 * bytes.len());
        bits::flip(&mut bytes, place);
    }
    bytes
}

/// 02 C-18: a frame that is right up to its header checksum or up to its trailer.
fn wrong_checksum(random: &mut Random) -> OnChannel {
    let fair = fair_draft(random);
    Unreadable::telling(random, fair).on_channel()
}

fn cut_or_extended(random: &mut Random) -> OnChannel {
    let draft = fair_draft(random);
    let mut bytes = draft.bytes();
    if random.coin() {
        bytes.truncate(random.below(bytes.len()));
    } else {
        let more = random.between(1, 12);
        bytes.extend(random.bytes(more));
    }
    OnChannel { channel: draft.channel.number(), bytes }
}

/// Any header at all with both checksums right for it.
fn random_header(random: &mut Random) -> OnChannel {
    let fair = fair_draft(random);
    let indicators = Indicators::from_flags(random.below(32) as u8);
    let id = if random.one_in(4) { 0 } else { fair.id };
    let words = if random.one_in(3) { random.below(usize::from(MOST_WORDS) + 1) as u8 } else { fair.words };
    let draft = Draft { indicators, id, words, ..fair };
    draft.on_channel()
}

fn read_with_some_faults(random: &mut Random) -> Command {
    let faults = some_faults(random, &READ_ORDER);
    faulty_read(random, &faults)
}

fn bench_with_some_faults(random: &mut Random) -> Command {
    let faults = some_faults(random, &READ_ORDER);
    faulty_bench(random, &faults)
}

/// Any bytes as the whole input, none at all now and then.
fn any_bench_input(random: &mut Random) -> Command {
    let size = if random.one_in(4) { 0 } else { any_size(random) };
    Command::Bench(random.bytes(size))
}

/// Null frames with zeros and with a byte other than 0 come often (02 C-16), and so do frames as they were read.
fn any_write(random: &mut Random) -> Command {
    match random.below(6) {
        0 => faulty_write(random, &[]),
        1 => faulty_write(random, &[Refusal::NullFramePayload]),
        2 => Command::Write(fair_draft(random).again()),
        _ => write_with_some_faults(random),
    }
}

fn write_with_some_faults(random: &mut Random) -> Command {
    let faults = some_faults(random, &WRITE_ORDER);
    faulty_write(random, &faults)
}

fn encode_with_some_faults(random: &mut Random) -> Command {
    let faults = some_faults(random, &ENCODE_ORDER);
    faulty_encode(random, &faults)
}

/// A good frame as a rule, so that what is tested behind it counts.
fn any_encode(random: &mut Random) -> Command {
    let given = if random.one_in(4) { any_frame(random) } else { true_frame(random) };
    match random.below(9) {
        0 => encode_of(random, given, &[Refusal::StartLength]),
        1 => encode_of(random, given, &[Refusal::StartLength, Refusal::PackedOutput]),
        2 | 3 => encode_of(random, given, &[Refusal::PackedOutput]),
        _ => encode_of(random, given, &[]),
    }
}

#[cfg(test)]
mod tests {
    use std::collections::{BTreeMap, BTreeSet};

    use super::*;
    use crate::frame::NULL_FRAME_BIT;
    use crate::payloads::places;
    use crate::replay::{Outcome, Replay};
    use crate::script::Write;
    use crate::wire::{self, START_LENGTHS};

    fn some_outcomes(count: usize) -> Vec<Outcome> {
        let mut random = Random::from_seed(31);
        let mut script = Vec::new();
        for _ in 0..count {
            frame_command(&mut random).append_to(&mut script);
        }
        Replay::of(&script).collect()
    }

    /// Every answer of the bench program turns up, and frames are accepted on both channels.
    #[test]
    fn bench_lines_of_every_sort() {
        let outcomes = some_outcomes(6_000);
        let lines: Vec<String> = outcomes.iter().map(|outcome| outcome.line()).collect();
        let count = |start: &str| lines.iter().filter(|line| line.starts_with(start)).count();
        for number in 1..=8 {
            assert!(count(&format!("refused {number}")) > 0, "{number}");
        }
        assert!(count("accepted") > 100);
        for channel in Channel::BOTH {
            let accepted = outcomes.iter().filter(|outcome| is_accepted_on(channel, outcome));
            assert!(accepted.count() > 40);
        }
    }

    /// Of a script for a player of frames each command is known, there are as many as asked for, and each is given often.
    #[test]
    fn frames_alone() {
        let script = frames_script(5, 3_000);
        let outcomes: Vec<Outcome> = Replay::by(Letters::Frames, &script).collect();
        assert_eq!(outcomes.len(), 3_000);
        let of_letter = |letter: char| {
            let is =
                |outcome: &&Outcome| matches!(outcome, Outcome::Answered(command, _) if command.letter() == letter);
            outcomes.iter().filter(is).count()
        };
        let counts = ['F', 'R', 'P'].map(of_letter);
        assert!(counts.iter().all(|count| *count > 200), "{counts:?}");
        assert_eq!(counts.iter().sum::<usize>(), 3_000);
    }

    fn is_accepted_on(channel: Channel, outcome: &Outcome) -> bool {
        let Outcome::Answered(Command::Bench(input), answer) = outcome else {
            return false;
        };
        input.first() == Some(&channel.number()) && answer.refusal().is_none()
    }

    /// Every answer to an encoding turns up, one in four is accepted, and each start length meets both sides of its room.
    #[test]
    fn encodings_of_every_sort() {
        let outcomes = some_outcomes(20_000);
        let encodings: Vec<(u8, u8, i64)> = outcomes.iter().filter_map(start_number_and_spare_room).collect();
        let count = |number| encodings.iter().filter(|(_, other, _)| *other == number).count();
        for refusal in ENCODE_ORDER {
            assert!(count(refusal.number()) > 8, "{refusal:?}");
        }
        assert!(4 * count(0) > encodings.len());
        for start in START_LENGTHS {
            assert!(encodings.contains(&(start, 0, 0)) && encodings.contains(&(start, 25, -1)), "{start}");
        }
    }

    /// Every answer to a write turns up. Null frames are often written with zeros, and often refused for one byte, which is
    /// at either end or between them; other frames are written as often.
    #[test]
    fn writes_of_every_sort() {
        let outcomes = some_outcomes(20_000);
        let writes: Vec<(&Write, u8)> = outcomes.iter().filter_map(write_and_number).collect();
        for refusal in WRITE_ORDER {
            assert!(writes.iter().filter(|(_, number)| *number == refusal.number()).count() > 40, "{refusal:?}");
        }
        // Of so many writes more than one is such a one.
        let one_in = |many: usize, number, is: fn(&Write) -> bool| {
            let found = writes.iter().filter(|(write, other)| *other == number && is(write)).count();
            assert!(many * found > writes.len(), "{found} of {}", writes.len());
        };
        one_in(12, 0, |write| is_null(write) && write.payload.len() > 1 && places(&write.payload).is_empty());
        one_in(24, 26, |write| places(&write.payload) == [0]);
        one_in(24, 26, |write| places(&write.payload) == [write.payload.len() - 1]);
        one_in(40, 26, is_other_than_0_between);
        one_in(8, 0, |write| !is_null(write));
        one_in(40, 0, |write| !is_null(write) && places(&write.payload).len() == 1);
    }

    /// 02 C-18: on both channels 4 and 8 are told by each entry that reads, of frames of many sizes.
    #[test]
    fn checksums_are_told_everywhere() {
        let mut sizes: BTreeMap<(char, u8, u8), BTreeSet<usize>> = BTreeMap::new();
        for outcome in some_outcomes(20_000) {
            let Outcome::Answered(command, answer) = outcome else {
                panic!("the script is whole");
            };
            let (channel, size) = match &command {
                Command::Read(given) => (given.channel, given.bytes.len()),
                Command::Encode(encode) => (encode.channel, encode.frame.len()),
                Command::Bench(input) if !input.is_empty() => (input[0], input.len() - 1),
                _ => continue,
            };
            assert_eq!(answer.checksums().differs(), matches!(answer.number(), 4 | 8));
            if answer.checksums().differs() {
                sizes.entry((command.letter(), answer.number(), channel)).or_default().insert(size);
            }
        }
        assert_eq!(sizes.len(), 3 * 2 * 2);
        assert!(sizes.values().all(|sizes| sizes.len() > 10), "{sizes:?}");
    }

    fn is_null(write: &Write) -> bool {
        write.flags & NULL_FRAME_BIT == 0
    }

    fn is_other_than_0_between(write: &Write) -> bool {
        matches!(places(&write.payload)[..], [place] if place > 0 && place + 1 < write.payload.len())
    }

    fn write_and_number(outcome: &Outcome) -> Option<(&Write, u8)> {
        match outcome {
            Outcome::Answered(Command::Write(write), answer) => Some((write, answer.number())),
            _ => None,
        }
    }

    fn start_number_and_spare_room(outcome: &Outcome) -> Option<(u8, u8, i64)> {
        let Outcome::Answered(Command::Encode(encode), answer) = outcome else {
            return None;
        };
        let packed = wire::packed_size(encode.start, encode.frame.len());
        Some((encode.start, answer.number(), encode.room as i64 - packed as i64))
    }
}
