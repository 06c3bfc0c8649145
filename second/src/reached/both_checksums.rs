//! 02 C-18: the checksums that were told and kept. They are worked out here otherwise than where the answers come from, and
//! both must say the same.

mod required;
mod worked_out;

use super::bench::digits;
use super::stays::Origin;
use super::Reached;
use crate::answer::Answer;
use crate::checksum_pair::ChecksumPair;
use crate::frame::{self, HEADER_BYTES, SMALLEST_FRAME};
use crate::listening::Call;
use crate::marks::Mark;
use crate::reader::Reader;
use crate::script::Command;
use crate::status_numbers::StatusNumbers;
use worked_out::{demanded, of_header, of_trailer};

pub(super) use required::{of_frames, required};

/// Longer rows of arrivals are not told apart.
const MOST_ARRIVALS: usize = 3;

/// What arrived in a slot since it was opened, or since its status was put.
#[derive(Default)]
pub(super) struct Arrivals {
    /// The status that was put, or the one of the opening.
    before: StatusNumbers,
    /// In their order: the number of a refusal, or what the slot's tests say.
    names: Vec<String>,
    /// What each refusal told.
    told: Vec<ChecksumPair>,
}

/// A single bit by its place.
pub(super) fn look(ChecksumPair { found, expected }: ChecksumPair) -> String {
    match (found, expected) {
        (0, 0) => "none".to_string(),
        (bit, 0) if bit.is_power_of_two() => format!("found bit {}", bit.ilog2()),
        (0, bit) if bit.is_power_of_two() => format!("expected bit {}", bit.ilog2()),
        (_, 0) => "found alone".to_string(),
        (0, _) => "expected alone".to_string(),
        _ if found == expected => "equal".to_string(),
        _ => "different".to_string(),
    }
}

impl Reached {
    /// The states are still those that the command finds.
    pub(super) fn add_both_checksums(&mut self, command: &Command, answer: &Answer) {
        match (command, answer) {
            (Command::Read(given), _) => self.add_refused_bytes('R', given.channel, &given.bytes, answer),
            (Command::Encode(encode), _) => self.add_refused_bytes('E', encode.channel, &encode.frame, answer),
            (Command::Bench(input), _) => {
                let (channel, frame) = input.split_first().unwrap_or((&u8::MAX, &[]));
                self.add_refused_bytes('P', *channel, frame, answer);
                self.add(format!("bench line of {} bytes", answer.line().len() + 1));
            }
            (Command::Arrived(bytes), Answer::Event(Ok(()))) => self.add_arrived_bytes(bytes),
            (Command::Show, Answer::Shown(_, status)) => self.add_shown_checksums(status),
            (Command::Measure(_), _) => self.add_measured_checksums(answer.number()),
            _ => (),
        }
    }

    /// Of a status that was put what it has, and of one that was opened what arrived.
    fn add_measured_checksums(&mut self, number: u8) {
        let status = &self.held.status;
        let (channel, syntax_error) = (status.channel, status.marks.has(Mark::SyntaxError));
        let (look, arrived) = (look(status.checksums), self.arrivals.names.join(", "));
        let what = match self.status_from {
            Origin::Opened => format!("behind [{arrived}]"),
            _ => format!("with checksums {look}, syntax error: {syntax_error}"),
        };
        self.add_of('M', format!("M on {channel:?} {what}: {number}"));
    }

    fn add_refused_bytes(&mut self, letter: char, channel: u8, bytes: &[u8], answer: &Answer) {
        let (number, size) = (answer.number(), bytes.len());
        let told = demanded(number, channel, bytes);
        let ChecksumPair { found, expected } = told;
        let line = answer.line();
        let right = match (letter, number) {
            ('P', 0) => line.starts_with("accepted "),
            ('P', 4 | 8) => line == format!("refused {number} {found} {expected}"),
            ('P', _) => line == format!("refused {number}"),
            _ => line.ends_with(&format!(" {found} {expected}")),
        };
        if answer.checksums() != told || !right {
            self.impossible.push(format!("{letter} of {bytes:02x?} on {channel} told {line}"));
        }
        if told.is_none() {
            return self.add_silent(letter, number, channel, bytes);
        }
        self.add(format!("{letter} tells {number} of {size} bytes on {channel}"));
        self.add(format!("{letter} tells {number} on {channel}, {} and {} digits", digits(found), digits(expected)));
    }

    /// Which checksums are wrong beside a number that tells nothing of them. Too few bytes have none.
    fn add_silent(&mut self, letter: char, number: u8, channel: u8, bytes: &[u8]) {
        if bytes.len() < SMALLEST_FRAME {
            return self.add(format!("{letter} tells nothing beside {number} on {channel}"));
        }
        let wrong = [of_header(&bytes[..HEADER_BYTES]), of_trailer(channel, bytes)].map(ChecksumPair::differs);
        self.add(format!("{letter} tells nothing beside {number} on {channel}, header and trailer wrong: {wrong:?}"));
    }

    pub(super) fn begin_arrivals(&mut self, before: StatusNumbers) {
        self.arrivals = Arrivals { before, ..Arrivals::default() };
    }

    fn add_arrived_bytes(&mut self, bytes: &[u8]) {
        let (status, size) = (&self.held.status, bytes.len());
        let channel = status.channel.number();
        let refused = match frame::read(channel, bytes) {
            Ok(fields) => {
                let name = if status.misses(&fields).is_empty() { "good" } else { "missed" };
                return self.arrivals.names.push(name.to_string());
            }
            Err(refused) => refused,
        };
        let (number, told) = (refused.number(), demanded(refused.number(), channel, bytes));
        self.arrivals.names.push(number.to_string());
        self.arrivals.told.push(told);
        if !told.is_none() {
            self.add_of('A', format!("A tells {number} of {size} bytes on {channel}"));
        }
    }

    /// Those of the first syntax error are kept, and one that was put is the first.
    fn add_shown_checksums(&mut self, shown: &StatusNumbers) {
        let Arrivals { before, names, told } = &self.arrivals;
        let (was_put, arrived) = (before.marks & Mark::SyntaxError.bit() != 0, names.join(", "));
        let first = told.first().filter(|_| !was_put);
        let kept = *first.unwrap_or(&before.checksums);
        if shown.checksums != kept {
            self.impossible.push(format!("behind {arrived} {} for {kept}", shown.checksums));
        }
        if names.len() > MOST_ARRIVALS {
            return;
        }
        let (channel, look) = (shown.channel, look(before.checksums));
        let others = told.iter().any(|checksums| *checksums != kept);
        match self.status_from {
            Origin::Opened => self.add(format!("opened on {channel:?}: [{arrived}], others later: {others}")),
            Origin::Put => self.add(format!("put with {look} on {channel:?}, syntax error: {was_put}: [{arrived}]")),
            _ => (),
        }
    }

    /// What the calls of a piece told, against what the same samples tell one by one.
    pub(super) fn check_heard(&mut self, calls: &[Call], walked: &[(u8, ChecksumPair)]) {
        let errors = calls.iter().filter(|call| call.number() > 0);
        let heard: Vec<(u8, ChecksumPair)> = errors.map(|call| (call.number(), call.checksums())).collect();
        let in_line = |call: &Call| {
            let ChecksumPair { found, expected } = call.checksums();
            call.line().ends_with(&format!(" {found} {expected}"))
        };
        if heard != walked || !calls.iter().all(in_line) {
            self.impossible.push(format!("{heard:?} heard for {walked:?}"));
        }
    }

    /// An error that the next sample of this reader told.
    pub(super) fn add_heard_checksums(&mut self, before: &Reader, number: u8, memory: &[u8]) -> (u8, ChecksumPair) {
        let channel = before.channel.number();
        // Behind the fifth byte the header is told of; at the end all bytes are counted.
        let size = usize::from(before.decoder.count).max(HEADER_BYTES);
        let told = demanded(number, channel, &memory[..size]);
        if told.is_none() {
            self.add(format!("Y tells nothing beside {number}"));
            return (number, told);
        }
        let zeros = [told.found, told.expected].map(|checksum| checksum == 0);
        self.add(format!("Y tells {number} of {size} bytes on {channel}"));
        self.add(format!("Y tells {number} on {channel}, zeros: {zeros:?}"));
        (number, told)
    }
}

#[cfg(test)]
mod tests {
    use super::*;

    #[test]
    fn looks_by_hand() {
        let cases = [
            (0, 0, "none"),
            (1, 0, "found bit 0"),
            (0x8000_0000, 0, "found bit 31"),
            (0, 2, "expected bit 1"),
            (3, 0, "found alone"),
            (0, 5, "expected alone"),
            (4, 4, "equal"),
            (4, 8, "different"),
        ];
        for (found, expected, text) in cases {
            assert_eq!(look(ChecksumPair { found, expected }), text);
        }
        assert_eq!([0, 9, 10, 9_999_999, 10_000_000].map(digits), [0, 1, 2, 7, 8]);
    }
}
