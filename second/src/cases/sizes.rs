//! Reads of every size that a script can hold.

use crate::channel::Channel;
use crate::draft::Draft;
use crate::frame::{LARGEST_FRAME, LARGEST_PAYLOAD, MOST_WORDS, SMALLEST_FRAME};
use crate::plan::{Expected, Plan};
use crate::random::Random;
use crate::refusal::Refusal;
use crate::script::{Command, LIMIT};

/// The longest payload of which a script holds the whole frame.
const LONGEST: usize = LIMIT - SMALLEST_FRAME;

pub fn add(plan: &mut Plan, random: &mut Random) {
    for size in 0..=LIMIT {
        add_random_bytes(plan, random, size);
    }
    for words in 0..=MOST_WORDS {
        for channel in Channel::BOTH {
            add_true_frame(plan, random, channel, words);
        }
    }
    for size in [LARGEST_PAYLOAD + 2, LARGEST_PAYLOAD + 3, 258, 300, 511, 512, LONGEST - 1, LONGEST] {
        add_overlong_frame(plan, random, size);
    }
}

fn add_random_bytes(plan: &mut Plan, random: &mut Random, size: usize) {
    let channel = random.pick(&Channel::BOTH).number();
    plan.add(Command::read(channel, &random.bytes(size)), by_size(size));
}

/// What the size alone decides.
fn by_size(size: usize) -> Expected {
    if size < SMALLEST_FRAME {
        return Expected::Refused(Refusal::TooFewBytes);
    }
    if size % 2 == 1 || size > LARGEST_FRAME {
        return Expected::Refused(Refusal::Size);
    }
    Expected::Anything
}

fn add_true_frame(plan: &mut Plan, random: &mut Random, channel: Channel, words: u8) {
    let bytes = Draft::fair(random, channel, words).bytes();
    plan.add(Command::read(channel.number(), &bytes), Expected::Accepted);
    plan.add(Command::read(channel.other().number(), &bytes), Expected::Refused(Refusal::FrameChecksum));
}

/// Header and trailer are right, only the payload is more than a frame can hold.
fn add_overlong_frame(plan: &mut Plan, random: &mut Random, payload: usize) {
    for channel in Channel::BOTH {
        let words = (payload / 2 % (usize::from(MOST_WORDS) + 1)) as u8;
        let fair = Draft::fair(random, channel, words);
        let draft = Draft { payload: random.bytes(payload), ..fair };
        plan.add(Command::read(channel.number(), &draft.bytes()), Expected::Refused(Refusal::Size));
    }
}
