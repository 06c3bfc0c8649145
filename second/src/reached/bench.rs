//! Inputs of the bench program: the shortest and the longest, and numbers of every length on its line.

use super::choices::any;
use super::Reached;
use crate::answer::Answer;
use crate::bench::LONGEST_INPUT;
use crate::cases::SHORT_INPUTS;
use crate::channel::Channel;
use crate::draft::FOREIGN_CHANNELS;
use crate::frame::{self, Fields};
use crate::script::LIMIT;

impl Reached {
    pub(super) fn add_bench(&mut self, input: &[u8], answer: &Answer) {
        if input.len() <= 2 {
            self.add(format!("input {input:?}: {}", answer.line()));
        }
        if let Some((channel, frame)) = input.split_first() {
            self.add_listed('P', *channel, frame, answer.number());
            self.add_null_frame('P', *channel, frame, answer.number());
        }
        if input.len() > LONGEST_INPUT && frame::read(Channel::A.number(), &input[1..LONGEST_INPUT]).is_ok() {
            self.add(format!("a good frame at the front of {} bytes on {}", input.len(), input[0]));
        }
        if let Answer::Bench(Ok(Fields { id, cycle, words, .. })) = answer {
            let [id, cycle, words] = [u32::from(*id), (*cycle).into(), (*words).into()].map(digits);
            self.add(format!("line with {id}, {cycle} and {words} digits"));
        }
    }
}

/// How many, none standing for the number 0.
pub(super) fn digits(number: u32) -> u32 {
    number.checked_ilog10().map_or(0, |highest| highest + 1)
}

pub(super) fn required() -> Vec<String> {
    let (too_long, foreign) = (LONGEST_INPUT + 1, any(FOREIGN_CHANNELS));
    let mut all: Vec<String> = SHORT_INPUTS.iter().map(|(input, line)| format!("input {input:?}: {line}")).collect();
    all.push(format!("a good frame at the front of <{too_long}|{LIMIT}> bytes on <0|1|{foreign}>"));
    all.push("line with <1..4>, <0..2> and <0..3> digits".to_string());
    all
}
