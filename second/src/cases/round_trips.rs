//! What is written is read back, and what was read is written again (01 "Frame layout"), the second with the two
//! exceptions of 02 C-16.

use crate::answer::Answer;
use crate::channel::Channel;
use crate::draft::{fair_words, Draft};
use crate::faults::fair_write;
use crate::frame::{self, Fields, MOST_WORDS};
use crate::payloads;
use crate::plan::{Expected, Plan};
use crate::random::Random;
use crate::refusal::Refusal;
use crate::script::{Command, Write};

const ROUNDS: usize = 100;

pub fn add(plan: &mut Plan, random: &mut Random) {
    for words in 0..=MOST_WORDS {
        let channel = random.pick(&Channel::BOTH);
        add_written_then_read(plan, random, channel, words);
        add_read_then_written(plan, random, channel.other(), words);
    }
    for _ in 0..ROUNDS {
        let channel = random.pick(&Channel::BOTH);
        let words = fair_words(random);
        add_written_then_read(plan, random, channel, words);
        add_read_then_written(plan, random, channel, words);
    }
}

fn add_written_then_read(plan: &mut Plan, random: &mut Random, channel: Channel, words: u8) {
    let write = fair_write(random, channel, 2 * usize::from(words));
    let mut frame = vec![0; write.room];
    frame::write(write.channel, &write.given(), &write.payload, &mut frame).expect("a fair write is taken");
    let read_back = Answer::Read(Ok(fields_of(&write)), write.payload.clone()).line();
    plan.add(Command::Write(write), Expected::Accepted);
    plan.add(Command::read(channel.number(), &frame), Expected::Line(read_back));
    plan.add(Command::read(channel.other().number(), &frame), Expected::Refused(Refusal::FrameChecksum));
}

/// The fields that reading back must give, from what the writer was given.
fn fields_of(write: &Write) -> Fields {
    let given = write.given();
    Fields {
        indicators: given.indicators,
        id: given.id,
        words: (write.payload.len() / 2) as u8,
        header_checksum: 0,
        cycle: given.cycle,
    }
    .with_right_checksum()
}

fn add_read_then_written(plan: &mut Plan, random: &mut Random, channel: Channel, words: u8) {
    let draft = Draft::fair(random, channel, words);
    let mut drafts = vec![draft.clone(), draft.clone().unreserved(), draft.writable()];
    // Two of them are the same where one of the exceptions doesn't hold.
    drafts.dedup();
    drafts.iter().for_each(|draft| add_rewritten(plan, draft));
}

/// A good frame is read, and what the read gives is written.
pub(super) fn add_rewritten(plan: &mut Plan, draft: &Draft) {
    let line = Answer::Read(Ok(draft.fields()), draft.payload.clone()).line();
    plan.add(Command::Read(draft.on_channel()), Expected::Line(line));
    plan.add(Command::Write(draft.again()), rewritten(draft));
}

/// The same bytes, but for the frames that are read and can't be written again.
fn rewritten(draft: &Draft) -> Expected {
    if draft.indicators.reserved {
        return Expected::Refused(Refusal::ReservedToWrite);
    }
    if !draft.indicators.null_frame && !payloads::places(&draft.payload).is_empty() {
        return Expected::Refused(Refusal::NullFramePayload);
    }
    let frame = draft.bytes();
    Expected::Line(Answer::Write(Ok(frame.len()), frame).line())
}
