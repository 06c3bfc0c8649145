//! The commands of a script together with what the rules say must come of them.

use crate::answer::Answer;
use crate::clock_numbers::ClockNumbers;
use crate::listening::Call;
use crate::reader_numbers::ReaderNumbers;
use crate::refusal::Refusal;
use crate::script::{Command, Letters};
use crate::status_numbers::StatusNumbers;

/// What must come of a command: what its case demands, or in a round trip what the command before it gave.
#[derive(Clone, Debug)]
pub enum Expected {
    Anything,
    Accepted,
    Refused(Refusal),
    /// Some refusal, as the bytes are those of this good frame with bits turned over.
    Damaged(Vec<u8>),
    Line(String),
    /// A showing of this status, whatever the clock state.
    Status(StatusNumbers),
    /// A showing of this clock state, whatever the status.
    Clock(Box<ClockNumbers>),
    /// A showing of this reader, whatever the memory.
    Reader(ReaderNumbers),
    /// What an accepted piece of samples tells: 0 for a frame, and otherwise an error's number.
    Told(Vec<u8>),
}

impl Expected {
    pub fn line(line: &str) -> Expected {
        Expected::Line(line.to_string())
    }

    /// The first cause in the entry's order is the refusal; no cause at all means accepted.
    pub fn first_of(faults: &[Refusal]) -> Expected {
        faults.first().map_or(Expected::Accepted, |first| Expected::Refused(*first))
    }

    fn is_met_by(&self, answer: &Answer) -> bool {
        match self {
            Expected::Anything => true,
            Expected::Accepted => answer.refusal().is_none(),
            Expected::Refused(refusal) => answer.refusal() == Some(*refusal),
            Expected::Damaged(_) => answer.refusal().is_some(),
            Expected::Line(line) => answer.line() == *line,
            Expected::Status(numbers) => matches!(answer, Answer::Shown(_, shown) if shown == numbers),
            Expected::Clock(numbers) => matches!(answer, Answer::Shown(shown, _) if shown == numbers),
            Expected::Reader(numbers) => matches!(answer, Answer::ReaderShown(shown, _) if shown == numbers),
            Expected::Told(numbers) => {
                matches!(answer, Answer::Heard(calls) if told_by(calls) == Some(numbers.clone()))
            }
        }
    }
}

/// None with a refusal.
fn told_by(calls: &[Call]) -> Option<Vec<u8>> {
    calls[0].answer.ok()?;
    Some(calls.iter().filter(|call| call.tells()).map(Call::number).collect())
}

#[derive(Clone, Debug)]
pub struct Entry {
    pub command: Command,
    pub expected: Expected,
}

impl Entry {
    /// Says what is wrong with an outcome, if anything is.
    pub fn complaint(&self, command: &Command, answer: &Answer) -> Option<String> {
        if *command != self.command {
            return Some(format!("{:?} was played as {command:?}", self.command));
        }
        if self.expected.is_met_by(answer) {
            return None;
        }
        Some(format!("{command:?} should give {:?} and gave {}", self.expected, answer.line()))
    }
}

#[derive(Default)]
pub struct Plan {
    pub entries: Vec<Entry>,
}

impl Plan {
    pub fn add(&mut self, command: Command, expected: Expected) {
        self.entries.push(Entry { command, expected });
    }

    /// A command with the named causes.
    pub fn add_faulty(&mut self, command: Command, faults: &[Refusal]) {
        self.add(command, Expected::first_of(faults));
    }

    /// The commands that a player knows by these letters.
    pub fn known_to(mut self, letters: Letters) -> Plan {
        self.entries.retain(|entry| letters.know(entry.command.letter()));
        self
    }

    pub fn script(&self) -> Vec<u8> {
        let mut script = Vec::new();
        for entry in &self.entries {
            entry.command.append_to(&mut script);
        }
        script
    }
}
