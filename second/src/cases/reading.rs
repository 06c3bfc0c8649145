//! Reads: every value of every header field, every refusal and all their coincidences.

use crate::channel::Channel;
use crate::draft::{Draft, FOREIGN_CHANNELS};
use crate::faults::{faulty_read, selections};
use crate::frame::{Indicators, HIGHEST_CYCLE, HIGHEST_ID, LARGEST_FRAME, MOST_WORDS, SMALLEST_FRAME};
use crate::plan::{Expected, Plan};
use crate::random::Random;
use crate::refusal::{Refusal, READ_ORDER};
use crate::script::Command;

const ROUNDS_OF_SELECTIONS: usize = 5;

pub fn add(plan: &mut Plan, random: &mut Random) {
    add_channels(plan, random);
    add_ids(plan, random);
    add_header_checksums(plan, random);
    for channel in Channel::BOTH {
        add_indicators(plan, random, channel);
        add_cycles(plan, random, channel);
        add_words(plan, random, channel);
        add_frame_checksums(plan, random, channel);
    }
    for _ in 0..ROUNDS_OF_SELECTIONS {
        add_selections(plan, random);
    }
}

fn add_draft(plan: &mut Plan, draft: &Draft, expected: Expected) {
    plan.add(Command::read(draft.channel.number(), &draft.bytes()), expected);
}

fn add_channels(plan: &mut Plan, random: &mut Random) {
    let frame = Draft::fair(random, Channel::A, 1).bytes();
    for channel in 2..=255 {
        plan.add(Command::read(channel, &frame), Expected::Refused(Refusal::Channel));
    }
    for channel in FOREIGN_CHANNELS {
        for size in [0, SMALLEST_FRAME - 1, SMALLEST_FRAME + 1, LARGEST_FRAME + 1, LARGEST_FRAME + 2] {
            plan.add(Command::read(channel, &random.bytes(size)), Expected::Refused(Refusal::Channel));
        }
    }
}

fn add_ids(plan: &mut Plan, random: &mut Random) {
    for id in 0..=HIGHEST_ID {
        let channel = random.pick(&Channel::BOTH);
        let draft = Draft { id, ..Draft::fair(random, channel, 0) };
        let expected = if id == 0 { Expected::Refused(Refusal::IdRead) } else { Expected::Accepted };
        add_draft(plan, &draft, expected);
    }
}

/// Every header checksum but the right one is refused.
fn add_header_checksums(plan: &mut Plan, random: &mut Random) {
    let draft = Draft::fair(random, Channel::B, 0);
    for header_checksum_change in 1..=0x7FF {
        let wrong = Draft { header_checksum_change, ..draft.clone() };
        add_draft(plan, &wrong, Expected::Refused(Refusal::HeaderChecksum));
    }
}

fn add_indicators(plan: &mut Plan, random: &mut Random, channel: Channel) {
    for flags in 0..32 {
        let indicators = Indicators::from_flags(flags);
        let draft = Draft { indicators, ..Draft::fair(random, channel, 2) };
        let refused = indicators.startup && !indicators.sync;
        let expected = if refused { Expected::Refused(Refusal::StartupWithoutSync) } else { Expected::Accepted };
        add_draft(plan, &draft, expected);
    }
}

fn add_cycles(plan: &mut Plan, random: &mut Random, channel: Channel) {
    for cycle in 0..=HIGHEST_CYCLE {
        let draft = Draft { cycle, ..Draft::fair(random, channel, 1) };
        add_draft(plan, &draft, Expected::Accepted);
    }
}

/// One size, every number of words that the header can claim.
fn add_words(plan: &mut Plan, random: &mut Random, channel: Channel) {
    let fair = Draft::fair(random, channel, 3);
    for words in 0..=MOST_WORDS {
        let draft = Draft { words, ..fair.clone() };
        let expected = if words == 3 { Expected::Accepted } else { Expected::Refused(Refusal::WordsAgainstSize) };
        add_draft(plan, &draft, expected);
    }
}

fn add_frame_checksums(plan: &mut Plan, random: &mut Random, channel: Channel) {
    let fair = Draft::fair(random, channel, 4);
    for place in 0..24 {
        let wrong = Draft { frame_checksum_change: 1 << place, ..fair.clone() };
        add_draft(plan, &wrong, Expected::Refused(Refusal::FrameChecksum));
    }
    let inverted = Draft { frame_checksum_change: 0xFF_FFFF, ..fair };
    add_draft(plan, &inverted, Expected::Refused(Refusal::FrameChecksum));
}

/// All causes alone and together; the first in 01's order of a read is the answer.
fn add_selections(plan: &mut Plan, random: &mut Random) {
    for faults in selections(&READ_ORDER) {
        plan.add_faulty(faulty_read(random, &faults), &faults);
    }
}
