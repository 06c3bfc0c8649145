//! The bench program's lines: inputs listed in 01, every refusal, every size, and numbers of every length.

use crate::bench::LONGEST_INPUT;
use crate::channel::Channel;
use crate::checksum_pair::ChecksumPair;
use crate::draft::{Draft, FOREIGN_CHANNELS};
use crate::faults::{faulty_bench, selections};
use crate::frame::{HIGHEST_CYCLE, HIGHEST_ID, LARGEST_FRAME, MOST_WORDS, NULL_FRAME_BIT, SMALLEST_FRAME};
use crate::listed_frames::{self, LONG, SHORT};
use crate::plan::{Expected, Plan};
use crate::random::Random;
use crate::refusal::READ_ORDER;
use crate::script::{Command, LIMIT};

pub fn add(plan: &mut Plan, random: &mut Random) {
    SHORT_INPUTS.iter().for_each(|(input, line)| add_listed(plan, input, line));
    for channel in Channel::BOTH {
        add_listed_frames(plan, channel);
        add_each_refusal(plan, channel);
        add_sizes_of_01(plan, channel);
        add_beyond(plan, random, channel.number(), "refused 3");
        add_numbers(plan, channel);
    }
    for channel in FOREIGN_CHANNELS {
        add_beyond(plan, random, channel, "refused 1");
    }
    add_foreign_channels(plan, random);
    for size in 0..=LIMIT {
        add_refused_size(plan, random, size);
    }
    for words in 0..=MOST_WORDS {
        Channel::BOTH.iter().for_each(|channel| add_accepted_size(plan, random, *channel, words));
    }
    for faults in selections(&READ_ORDER) {
        plan.add_faulty(faulty_bench(random, &faults), &faults);
    }
}

fn add_listed(plan: &mut Plan, input: &[u8], line: &str) {
    plan.add(Command::Bench(input.to_vec()), Expected::line(line));
}

/// No input at all, one byte, and 01's two.
pub const SHORT_INPUTS: [(&[u8], &str); 8] = [
    (&[], "refused 1"),
    (&[0x00], "refused 2"),
    (&[0x01], "refused 2"),
    (&[0x02], "refused 1"),
    (&[0xFF], "refused 1"),
    (&[0x00, 0x20], "refused 2"),
    (&[0x01, 0x20], "refused 2"),
    (&[0x20, 0x00], "refused 1"),
];

fn on(channel: u8, frame: &[u8]) -> Vec<u8> {
    [&[channel], frame].concat()
}

/// Each frame on its own channel, on the other one and on none.
fn add_listed_frames(plan: &mut Plan, channel: Channel) {
    for frame in listed_frames::ALL {
        let bytes = frame.bytes(channel);
        add_listed(plan, &on(channel.number(), &bytes), frame.bench_line);
        add_listed(plan, &on(channel.other().number(), &bytes), &format!("refused 8 {}", frame.strange(channel)));
        for foreign in FOREIGN_CHANNELS {
            add_listed(plan, &on(foreign, &bytes), "refused 1");
        }
    }
}

/// One frame, and what is made of it for each refusal.
fn add_each_refusal(plan: &mut Plan, channel: Channel) {
    for (number, (given, checksums)) in (1..).zip(listed_frames::refused(channel)) {
        add_listed(plan, &on(given.channel, &given.bytes), &refused_line(number, checksums));
    }
}

/// 02 C-18: both checksums behind 4 and 8, and nothing behind the others.
pub(super) fn refused_line(number: u8, checksums: ChecksumPair) -> String {
    match number {
        4 | 8 => format!("refused {number} {checksums}"),
        _ => format!("refused {number}"),
    }
}

/// 01's sizes, once of the frame bytes and once of the whole input, which has one byte more.
fn add_sizes_of_01(plan: &mut Plan, channel: Channel) {
    let short = [(0, "refused 2"), (6, "refused 2"), (7, "refused 2"), (8, SHORT.bench_line), (9, "refused 3")];
    let long = [(261, "refused 3"), (262, LONG.bench_line), (263, "refused 3"), (264, "refused 3")];
    for (size, line) in short {
        add_listed(plan, &on(channel.number(), &SHORT.sized(channel, size)), line);
    }
    for (size, line) in long {
        add_listed(plan, &on(channel.number(), &LONG.sized(channel, size)), line);
    }
}

/// More input bytes than the longest, a good frame at the front of them or not.
fn add_beyond(plan: &mut Plan, random: &mut Random, channel: u8, line: &str) {
    for size in [LONGEST_INPUT + 1, LONGEST_INPUT + 2, LONGEST_INPUT + 3, 520, LIMIT - 1, LIMIT] {
        let good = LONG.sized(Channel::A, size - 1);
        for frame in [good, random.bytes(size - 1)] {
            add_listed(plan, &on(channel, &frame), line);
        }
    }
}

pub(super) fn add_accepted(plan: &mut Plan, draft: &Draft) {
    let line = format!("accepted {} {} {}", draft.id, draft.cycle, draft.words);
    plan.add(Command::bench(draft.channel.number(), &draft.bytes()), Expected::Line(line));
}

/// Numbers of every length, so that a zero too many or too few would show.
fn add_numbers(plan: &mut Plan, channel: Channel) {
    for id in [1, 10, 100, 1000] {
        for cycle in [0, 9, 10] {
            for words in [0, 9, 10, 100] {
                add_accepted(plan, &Draft::plain(channel, NULL_FRAME_BIT, id, words, cycle));
            }
        }
    }
    for id in [9, 20, 99, 101, 110, 999, 1001, 1010, 2000, HIGHEST_ID] {
        add_accepted(plan, &Draft::plain(channel, NULL_FRAME_BIT, id, 5, 7));
    }
    for cycle in [1, 11, 20, 60, HIGHEST_CYCLE] {
        add_accepted(plan, &Draft::plain(channel, NULL_FRAME_BIT, 305, 6, cycle));
    }
    for words in [1, 20, 99, 101, 110, 120, MOST_WORDS] {
        add_accepted(plan, &Draft::plain(channel, NULL_FRAME_BIT, 8, words, 30));
    }
}

fn add_foreign_channels(plan: &mut Plan, random: &mut Random) {
    for channel in 2..=255 {
        let frame = Draft::fair(random, Channel::B, 0).bytes();
        plan.add(Command::bench(channel, &frame), Expected::line("refused 1"));
    }
}

/// Where the size alone gives no refusal, the header checksum is wrong.
fn add_refused_size(plan: &mut Plan, random: &mut Random, size: usize) {
    let channel = random.pick(&Channel::BOTH);
    let Some(frame_size) = size.checked_sub(1) else {
        return plan.add(Command::Bench(Vec::new()), Expected::line("refused 1"));
    };
    if frame_size < SMALLEST_FRAME {
        return add_bytes(plan, random, channel, frame_size, "refused 2");
    }
    if frame_size % 2 == 1 || frame_size > LARGEST_FRAME {
        return add_bytes(plan, random, channel, frame_size, "refused 3");
    }
    let words = ((frame_size - SMALLEST_FRAME) / 2) as u8;
    let wrong = Draft { header_checksum_change: 0x400, ..Draft::fair(random, channel, words) };
    let line = refused_line(4, wrong.header_checksums());
    plan.add(Command::bench(channel.number(), &wrong.bytes()), Expected::Line(line));
}

fn add_bytes(plan: &mut Plan, random: &mut Random, channel: Channel, size: usize, line: &str) {
    plan.add(Command::bench(channel.number(), &random.bytes(size)), Expected::line(line));
}

fn add_accepted_size(plan: &mut Plan, random: &mut Random, channel: Channel, words: u8) {
    add_accepted(plan, &Draft::fair(random, channel, words));
}
