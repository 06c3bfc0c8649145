//! Reader commands at random: streams good and bad in pieces, on readers that were opened and on readers that were put.

use crate::channel::Channel;
use crate::draft::{foreign_channel, Draft};
use crate::faults::fair_start;
use crate::frame::{LARGEST_FRAME, SMALLEST_FRAME};
use crate::mixture;
use crate::random::Random;
use crate::reader_numbers::{
    ReaderNumbers, BYTE, BYTE_START_HIGH, BYTE_START_LOW, END_LOW, FRAME_START, LAST_PHASE, START,
};
use crate::samples::{self, IDLE_BITS, LOW};
use crate::script::{Command, Listen, Run, MEMORY};
use crate::streams;
use crate::unreadable::Unreadable;
use crate::wire;

const MOST_STREAMS: usize = 3;

/// No piece has more samples.
const LONGEST_PIECE: usize = 2_000;

/// One reader from its opening on, or from a reader put in its place, and what it hears in pieces.
pub fn episode(random: &mut Random) -> Vec<Command> {
    let channel = random.pick(&Channel::BOTH);
    let mut commands = vec![start(random, channel)];
    for _ in 0..random.between(1, MOST_STREAMS) {
        let stream = any_stream(random, channel);
        commands.extend(pieces(random, &stream));
        if random.one_in(3) {
            commands.push(Command::ShowReader);
        }
    }
    commands
}

/// An opening as a rule.
fn start(random: &mut Random, channel: Channel) -> Command {
    match random.below(20) {
        0..=12 => Command::OpenReader(channel.number()),
        13 => Command::OpenReader(foreign_channel(random)),
        14..=17 => Command::PutReader(sound(random, channel)),
        _ => Command::PutReader(changed(random, channel)),
    }
}

fn any_frame(random: &mut Random, channel: Channel) -> Vec<u8> {
    let channel = if random.one_in(12) { channel.other() } else { channel };
    let words = random.pick(&[0, 0, 0, 1, 2, 4]);
    let draft = Draft::fair(random, channel, words);
    match random.below(22) {
        0 => Draft { id: 0, ..draft }.bytes(),
        // 02 C-18: errors 4 and 8.
        1..=3 => Unreadable::telling(random, draft).bytes,
        4 => mixture::damaged(random, &draft),
        5 => {
            let mut startup = draft.indicators;
            (startup.sync, startup.startup) = (false, true);
            Draft { indicators: startup, ..draft }.bytes()
        }
        _ => draft.bytes(),
    }
}

fn any_stream(random: &mut Random, channel: Channel) -> Vec<u8> {
    let frame = any_frame(random, channel);
    let start = if random.one_in(10) { random.between(16, 20) as u8 } else { fair_start(random) };
    // Enough idle bits as a rule.
    let idle = if random.one_in(6) { random.between(7, 10) } else { random.between(IDLE_BITS, 14) };
    let mut clean = [samples::idle(idle), samples::of_frame(start, &frame)].concat();
    if random.one_in(24) {
        let last_bit = clean.len() - 8;
        clean[last_bit..].fill(LOW);
    }
    match random.below(12) {
        0..=4 => clean,
        5 | 6 => streams::disturbed(random, &clean),
        7..=9 => streams::damaged(random, &clean),
        10 => streams::drifting(random, &wire::stream(start, &frame)),
        _ => {
            let size = random.between(1, 600);
            streams::noise(random, size)
        }
    }
}

/// Some hundred samples as a rule, few or many now and then.
fn pieces(random: &mut Random, stream: &[u8]) -> Vec<Command> {
    let mut commands = Vec::new();
    let mut rest = stream;
    while !rest.is_empty() {
        let size = match random.below(16) {
            0 => random.between(0, 9),
            1 => LONGEST_PIECE,
            _ => random.between(1, 600),
        };
        let (piece, behind) = rest.split_at(size.min(rest.len()));
        commands.push(Command::Listen(Listen { room: any_room(random), runs: any_runs(random, piece) }));
        rest = behind;
    }
    commands
}

/// Enough as a rule.
fn any_room(random: &mut Random) -> usize {
    match random.below(40) {
        0 => LARGEST_FRAME - 1,
        1 => random.below(LARGEST_FRAME),
        2..=4 => random.between(LARGEST_FRAME, MEMORY),
        _ => MEMORY,
    }
}

/// The fewest as a rule; now and then some are taken apart, and some without a sample stand between.
fn any_runs(random: &mut Random, piece: &[u8]) -> Vec<Run> {
    let runs = samples::runs(piece);
    if !random.one_in(8) {
        return runs;
    }
    let mut apart = Vec::new();
    for Run { sample, times } in runs {
        let first = random.below(usize::from(times) + 1) as u8;
        apart.extend([Run { sample, times: first }, Run { sample, times: times - first }]);
    }
    apart
}

/// Any phase, with numbers that go with it; those that it doesn't have are at random.
fn sound(random: &mut Random, channel: Channel) -> ReaderNumbers {
    let phase = random.below(usize::from(LAST_PHASE) + 1) as u8;
    let (number, value) = match phase {
        START => (random.between(1, 17), 0),
        FRAME_START => (random.between(1, 3), 0),
        BYTE => {
            let number = random.below(8);
            (number, random.below(1 << number))
        }
        _ => (random.below(256), random.below(256)),
    };
    let put = ReaderNumbers {
        channel,
        samples: random.below(256) as u8,
        seen: 4,
        voted: random.coin(),
        counter: random.between(1, 8) as u8,
        realigns: random.coin(),
        timer: random.pick(&[0, 40, 87, 88]),
        phase,
        number: number as u8,
        value: value as u8,
        count: any_count(random, phase),
        since: 0,
    };
    ReaderNumbers { since: any_since(random, &put), ..put }
}

fn any_count(random: &mut Random, phase: u8) -> u16 {
    let (fewest, most) = match phase {
        BYTE => (0, LARGEST_FRAME - 1),
        BYTE_START_HIGH | BYTE_START_LOW => (1, LARGEST_FRAME - 1),
        END_LOW => (SMALLEST_FRAME, LARGEST_FRAME),
        _ => return 0,
    };
    let count = if random.coin() { random.between(fewest, most) } else { random.between(fewest, fewest + 12) };
    count as u16
}

/// At most as many samples as can lie behind the reference point.
fn any_since(random: &mut Random, put: &ReaderNumbers) -> u32 {
    if !(BYTE_START_HIGH..=END_LOW).contains(&put.phase) {
        return 0;
    }
    let most = put.reader().most_since();
    if random.one_in(4) {
        return most;
    }
    random.below(most as usize + 1) as u32
}

/// One number changed, which makes it unsound as a rule.
fn changed(random: &mut Random, channel: Channel) -> ReaderNumbers {
    let sound = sound(random, channel);
    let byte = random.below(256) as u8;
    match random.below(9) {
        0 => ReaderNumbers { seen: random.pick(&[0, 1, 2, 3, 5, byte]), ..sound },
        1 => ReaderNumbers { counter: random.pick(&[0, 9, byte]), ..sound },
        2 => ReaderNumbers { timer: random.pick(&[89, byte]), ..sound },
        3 => ReaderNumbers { phase: byte % (LAST_PHASE + 1), ..sound },
        4 => ReaderNumbers { number: random.pick(&[0, 4, 8, 18, byte]), ..sound },
        5 => ReaderNumbers { value: byte, ..sound },
        6 => ReaderNumbers { count: random.pick(&[0, 1, 7, 262, 263, 65535]), ..sound },
        7 => ReaderNumbers { since: sound.since + random.between(1, 5_000) as u32, ..sound },
        _ => ReaderNumbers { since: u32::MAX, ..sound },
    }
}

#[cfg(test)]
mod tests {
    use std::collections::{BTreeMap, BTreeSet};

    use super::*;
    use crate::answer::Answer;
    use crate::checksum_pair::ChecksumPair;
    use crate::replay::{Outcome, Replay};

    fn some_outcomes() -> Vec<Outcome> {
        let mut random = Random::from_seed(13);
        let mut script = Vec::new();
        for _ in 0..1_500 {
            episode(&mut random).iter().for_each(|command| command.append_to(&mut script));
        }
        Replay::of(&script).collect()
    }

    /// Most pieces are taken, frames are heard, and every number turns up.
    #[test]
    fn readers_tell_everything() {
        let text: String = some_outcomes().iter().map(|outcome| outcome.line() + "\n").collect();
        let mut counts: BTreeMap<&str, usize> = BTreeMap::new();
        for line in text.lines().filter(|line| line.starts_with("heard")) {
            *counts.entry(line.split(' ').nth(1).unwrap()).or_default() += 1;
        }
        let count = |number: &str| counts.get(number).copied().unwrap_or(0);
        for number in ["4", "6", "7", "8", "23", "30", "31", "32", "33", "34", "35", "36"] {
            assert!(count(number) > 8, "{number}: {counts:?}");
        }
        assert!(count("0") > 6 * count("23"));
        let frames = text.lines().filter(|line| line.starts_with("heard 0") && line.len() > 40).count();
        assert!(frames > 800, "{frames}");
        assert!(!text.contains("script error"));
    }

    /// 02 C-18: errors 4 and 8 tell checksums, and nothing else does.
    #[test]
    fn checksums_are_told() {
        let mut told: BTreeMap<u8, BTreeSet<ChecksumPair>> = BTreeMap::new();
        for outcome in some_outcomes() {
            let Outcome::Answered(_, Answer::Heard(calls)) = outcome else {
                continue;
            };
            for call in calls {
                told.entry(call.number()).or_default().insert(call.checksums());
            }
        }
        for (number, checksums) in told {
            match number {
                4 | 8 => assert!(checksums.len() > 100 && checksums.iter().all(|pair| pair.differs()), "{number}"),
                _ => assert_eq!(checksums, BTreeSet::from([ChecksumPair::NONE]), "{number}"),
            }
        }
    }

    /// Few samples on average, and never many.
    #[test]
    fn pieces_are_short() {
        let sizes: Vec<usize> = some_outcomes().iter().filter_map(size_of_piece).collect();
        assert!(sizes.iter().all(|size| *size <= LONGEST_PIECE));
        let average = sizes.iter().sum::<usize>() / sizes.len();
        assert!((100..=300).contains(&average), "{average}");
    }

    fn size_of_piece(outcome: &Outcome) -> Option<usize> {
        match outcome {
            Outcome::Answered(Command::Listen(listen), _) => Some(listen.samples().len()),
            _ => None,
        }
    }
}
