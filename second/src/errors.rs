//! Small scripts for every kind of script error, each with the lines written by hand.

mod clock;
mod frames;
mod gate;
mod reader;
mod sizes;

use crate::channel::Channel;
use crate::checksum_pair::ChecksumPair;
use crate::listed_frames::SHORT;
use crate::replay::{self, Outcome, Replay};
use crate::script::{Broken, Cause, Command, Encode, Letters, Opening, Write, LIMIT};
use crate::settings::{Settings, FIELDS};
use crate::sheet_mark::SheetMark;
use crate::status_numbers::{HeaderNumbers, StatusNumbers};

pub use clock::{CLOSED, OPEN};
pub use frames::of_frames;
pub use gate::one_of_each;
pub use reader::{PHASE, READER_CHANNEL, REALIGNS, VOTED};

pub struct Small {
    /// None where the script plays to its end.
    pub cause: Option<Cause>,
    pub script: Vec<u8>,
    pub text: String,
}

impl Small {
    /// How the script is broken, or what is wrong with its lines or with the cause.
    pub fn play(&self) -> Result<Option<Broken>, String> {
        self.play_by(Letters::All)
    }

    /// The same by a player that knows these letters.
    pub fn play_by(&self, letters: Letters) -> Result<Option<Broken>, String> {
        let text = replay::text_by(letters, &self.script);
        if text != self.text {
            return Err(format!("{:02x?} should give {:?} and gave {text:?}", self.script, self.text));
        }
        let found = Replay::by(letters, &self.script).find_map(|outcome| match outcome {
            Outcome::ScriptError(_, broken) => Some(broken),
            Outcome::Answered(..) => None,
        });
        if found.map(|broken| broken.cause) != self.cause {
            return Err(format!("{:02x?} should end by {:?} and ended by {found:?}", self.script, self.cause));
        }
        Ok(found)
    }
}

/// A frame that is accepted on channel A.
fn frame() -> Vec<u8> {
    SHORT.bytes(Channel::A)
}

/// An encoding of this frame that is taken, with a byte to spare.
fn encode() -> Encode {
    Encode { channel: 0, start: 1, frame: frame(), room: 12 }
}

/// In range, and slot 1 is static with them.
const SETTINGS: Settings =
    Settings { fields: [1, 2, 3, 4, 5, 6, 7, 8, 9, 0, 11], sends_sync: true, mark: SheetMark(0x1234_5678) };

const OPENING: Opening = Opening { settings: SETTINGS, channel: 0, slot: 1, cycle: 0 };

/// Bytes that begin no command: the letters in lower case, the capitals that have no command, and some others.
pub const UNKNOWN_LETTERS: &[u8] = b"frwpesabxtlomckdhyvzGIJNQU\x00\n ?\x80\xFF";

/// A status in which the frame above is kept, behind a syntax error that told checksums.
const STATUS: StatusNumbers = StatusNumbers {
    settings: SETTINGS,
    channel: Channel::A,
    slot: 1,
    cycle: 0,
    marks: 17,
    reason: 0,
    kept: true,
    header: HeaderNumbers { flags: 0b00100, id: 1, words: 0, checksum: 0x69F, cycle: 0 },
    checksums: ChecksumPair { found: 0x69E, expected: 0x69F },
};

/// Its line.
const STATUS_SHOWN: &str = "status 1 2 3 4 5 6 7 8 9 0 11 1 0 1 0 17 0 1 4 1 0 1695 0 305419896 1694 1695\n";

/// The lines of the states of all zeros.
const ZERO_CLOCK: &str = "clock 0 0 0 0 0 0 0 0 0 0 0 0 0 0 0 0 0 EVEN 0 ODD 0 0 EVEN ODD\n";
const ZERO_STATUS: &str = "status 0 0 0 0 0 0 0 0 0 0 0 0 0 0 0 0 0 0 0 0 0 0 0 0 0 0\n";

pub fn all() -> Vec<Small> {
    let mut all = vec![whole(&[], "")];
    all.extend(unknown_letters());
    all.extend(before_bytes());
    all.extend(ends_inside());
    all.extend(clock::ends_inside());
    all.extend(reader::ends_inside());
    all.extend(sizes::too_large());
    all.extend(reader::too_large());
    all.extend(sizes::at_the_limit());
    all.extend(wrong_bytes());
    all.extend(clock::wrong_switches());
    all.extend(reader::wrong_bytes());
    all.extend(no_errors());
    all.extend(clock::no_errors());
    all.extend(reader::no_errors());
    all.extend(after_good_ones());
    all.extend(one_of_each().into_iter().map(|(_, small)| small));
    all
}

/// A script without an error.
fn whole(script: &[u8], text: &str) -> Small {
    Small { cause: None, script: script.to_vec(), text: text.to_string() }
}

/// A script that is broken at its first command.
fn broken(cause: Cause, script: &[u8]) -> Small {
    Small { cause: Some(cause), script: script.to_vec(), text: "script error at 0\n".to_string() }
}

/// Both lines of a showing, the clock state being that of all zeros.
fn shown(status: &str) -> String {
    format!("{ZERO_CLOCK}{status}")
}

/// One whole command of each letter with its line; behind them the states of all zeros are held again.
fn good_ones() -> Vec<(Vec<u8>, String)> {
    let write = Write { channel: 0, flags: 0b00100, id: 1, cycle: 0, payload: vec![], room: 9 };
    let line = |line: &str| line.to_string();
    let mut commands = vec![
        (Command::checksum(0, b"123456789"), line("checksum 0 7961021\n")),
        (Command::read(0, &frame()), line("read 0 0 0 1 0 0 1 0 1695 0 - 0 0\n")),
        (Command::Write(write), line("write 0 8 200101a7c0d05eeaa5\n")),
        (Command::bench(0, &frame()), line("accepted 1 0 0\n")),
        (Command::Encode(encode()), line("encode 0 84 62080601a9ec0b425eba90a5 0 0\n")),
        (Command::OwnSending, line("event 23\n")),
        (Command::OpenSlot(OPENING), line("slot 0 0\n")),
        (Command::Boundary, line("event 0\n")),
        (Command::Arrived(frame()), line("event 0\n")),
        (Command::Show, shown("status 1 2 3 4 5 6 7 8 9 0 11 1 0 1 0 20 0 1 4 1 0 1695 0 305419896 0 0\n")),
        (Command::PutStatus(STATUS), line("status put\n")),
        (Command::OwnSending, line("event 0\n")),
    ];
    commands.extend(clock::good_ones());
    commands.extend([
        (Command::Show, shown("status 1 2 3 4 5 6 7 8 9 0 11 1 0 1 0 57 0 1 4 1 0 1695 0 305419896 1694 1695\n")),
        (Command::OpenSlot(Opening { channel: 2, ..OPENING }), line("slot 1 0\n")),
        (Command::Show, shown(ZERO_STATUS)),
    ]);
    commands.extend(reader::good_ones());
    commands.into_iter().map(|(command, line)| (bytes_of(&command), line)).collect()
}

fn bytes_of(command: &Command) -> Vec<u8> {
    let mut script = Vec::new();
    command.append_to(&mut script);
    script
}

fn unknown_letters() -> Vec<Small> {
    UNKNOWN_LETTERS.iter().map(|letter| broken(Cause::UnknownLetter, &[*letter])).collect()
}

/// Letters without a meaning before bytes that a command of theirs may have, zeros and good commands.
fn before_bytes() -> Vec<Small> {
    let sheet = &bytes_of(&Command::OpenSlot(OPENING))[1..=SENDS_SYNC];
    let zeros = shown(ZERO_STATUS);
    let mut all = Vec::new();
    for letter in [b"G", b"p"] {
        all.push(broken(Cause::UnknownLetter, &[letter, sheet, &[0; 500], b"DD"].concat()));
        let script = [b"D", &letter[..], &[0; 500]].concat();
        let text = format!("{zeros}script error at 1\n");
        all.push(Small { cause: Some(Cause::UnknownLetter), script, text });
    }
    all
}

/// Every place at which a command can be cut off, from right behind the letter on.
fn ends_inside() -> Vec<Small> {
    let write = Write { channel: 0, flags: 0b00100, id: 1, cycle: 0, payload: vec![1, 2], room: 10 };
    let whole = [
        Command::checksum(0, &[1, 2]),
        Command::read(0, &frame()),
        Command::Write(write),
        Command::bench(0, &frame()),
        Command::Encode(encode()),
        Command::OpenSlot(OPENING),
        Command::Arrived(frame()),
        Command::PutStatus(STATUS),
        // Also a header that isn't looked at must be there whole.
        Command::PutStatus(StatusNumbers { marks: 0, kept: false, ..STATUS }),
    ];
    let mut all = Vec::new();
    for script in whole.map(|command| bytes_of(&command)) {
        all.extend((1..script.len()).map(|size| broken(Cause::EndInside, &script[..size])));
    }
    // A foreign channel is no answer yet while the command isn't whole.
    all.push(broken(Cause::EndInside, b"R\xFF\x08\x00\x20"));
    all.push(broken(Cause::EndInside, b"P\x08\x00\xFF\x20"));
    // The same of a start length.
    all.push(broken(Cause::EndInside, &[b"E\x00\x00\x08\x00", &frame()[..], b"\x0C"].concat()));
    all
}

/// Where a byte stands in its command, the letter at place 0.
pub const SENDS_SYNC: usize = 1 + 4 * FIELDS;
pub const CHANNEL: usize = SENDS_SYNC + 1;
const MARKS: usize = CHANNEL + 4;
const REASON: usize = MARKS + 1;
pub const KEPT: usize = REASON + 1;
const FLAGS: usize = KEPT + 1;
/// Flags, ID (2), words, checksum (2) and cycle of the kept frame and the mark (4) stand between.
const FOUND: usize = FLAGS + 11;
const EXPECTED: usize = FOUND + 4;

/// The bytes of a command with one of them changed.
fn changed(command: &Command, place: usize, byte: u8) -> Vec<u8> {
    let mut bytes = bytes_of(command);
    bytes[place] = byte;
    bytes
}

/// A status is put and shown before the command, and shown behind it.
fn with_byte(command: &Command, place: usize, byte: u8, lines: &str) -> Small {
    let put = bytes_of(&Command::PutStatus(STATUS));
    let script = [&put[..], b"D", &changed(command, place, byte), b"D"].concat();
    whole(&script, &format!("status put\n{}{lines}", shown(STATUS_SHOWN)))
}

/// The same where the byte is an error.
fn with_wrong_byte(command: &Command, place: usize, byte: u8, cause: Cause) -> Small {
    Small { cause: Some(cause), ..with_byte(command, place, byte, "script error at 2\n") }
}

/// Switches that are neither 0 nor 1, and reasons above 6.
fn wrong_bytes() -> Vec<Small> {
    let (open, put) = (Command::OpenSlot(OPENING), Command::PutStatus(STATUS));
    let unlooked = Command::PutStatus(StatusNumbers { marks: 0, kept: false, ..STATUS });
    let switches = [(&open, SENDS_SYNC), (&put, SENDS_SYNC), (&put, CHANNEL), (&put, KEPT), (&unlooked, KEPT)];
    let mut all = Vec::new();
    for (command, place) in switches {
        all.extend([2, 3, 128, 255].map(|byte| with_wrong_byte(command, place, byte, Cause::WrongSwitch)));
    }
    all.extend([7, 8, 128, 255].map(|byte| with_wrong_byte(&put, REASON, byte, Cause::ReasonAbove)));
    all
}

/// Bytes that look like those above but are none of the errors.
fn no_errors() -> Vec<Small> {
    let (open, put) = (Command::OpenSlot(OPENING), Command::PutStatus(STATUS));
    let mut all: Vec<Small> =
        [2, 255].map(|byte| with_byte(&open, CHANNEL, byte, &format!("slot 1 0\n{}", shown(ZERO_STATUS)))).into();
    let same = format!("status put\n{}", shown(STATUS_SHOWN));
    all.push(with_byte(&put, MARKS, 0b1101_0001, &same));
    all.push(with_byte(&put, FLAGS, 0b1110_0100, &same));
    let put_and_shown = |line: String| format!("status put\n{}", shown(&line));
    let last_reason = STATUS_SHOWN.replace(" 17 0 1 4 ", " 17 6 1 4 ");
    all.push(with_byte(&put, REASON, 6, &put_and_shown(last_reason)));
    // 02 C-18: checksums may be any, also without "syntax error".
    for (place, byte, numbers) in [
        (FOUND, 0xFF, "1791 1695"),
        (FOUND + 3, 0x80, "2147485342 1695"),
        (EXPECTED, 0, "1694 1536"),
        (EXPECTED + 3, 0xFF, "1694 4278191775"),
    ] {
        all.push(with_byte(&put, place, byte, &put_and_shown(STATUS_SHOWN.replace("1694 1695", numbers))));
    }
    all.push(with_byte(&put, MARKS, 16, &put_and_shown(STATUS_SHOWN.replace(" 17 0 1 4 ", " 16 0 1 4 "))));
    all
}

fn after_good_ones() -> Vec<Small> {
    let [low, high] = (LIMIT as u16 + 1).to_le_bytes();
    let broken: [(Cause, &[u8]); 28] = [
        (Cause::UnknownLetter, b"?"),
        (Cause::EndInside, b"F"),
        (Cause::EndInside, b"R\x00\x08"),
        (Cause::EndInside, b"W\x00\x04\x01\x00\x00\x02\x00\x11"),
        (Cause::EndInside, b"P\x02\x00\x00"),
        (Cause::SizeAbove, &[b'F', 0, low, high]),
        (Cause::SizeAbove, b"R\x00\xFF\xFF"),
        (Cause::SizeAbove, &[b'W', 0, 4, 1, 0, 0, low, high]),
        (Cause::RoomAbove, &[b'W', 0, 4, 1, 0, 0, 0, 0, low, high]),
        (Cause::SizeAbove, &[b'P', low, high]),
        (Cause::EndInside, b"E\x00\x01\x02\x00\x20\x01\x00"),
        (Cause::SizeAbove, &[b'E', 0, 1, low, high]),
        (Cause::RoomAbove, &[b'E', 0, 1, 0, 0, low, high]),
        (Cause::EndInside, b"S\x01\x00\x00\x00"),
        (Cause::SizeAbove, &[b'A', low, high]),
        (Cause::EndInside, b"T\x01\x00\x00\x00"),
        (Cause::EndInside, b"L\x01\x00\x00\x00"),
        (Cause::EndInside, b"O"),
        (Cause::EndInside, b"M\x01\x00\x00\x00\x02\x00\x00"),
        (Cause::EndInside, b"C\x01"),
        (Cause::EndInside, b"K\x01\x00\x00\x00"),
        (Cause::EndInside, b"H"),
        (Cause::EndInside, b"Y\x0E\x01\x02\x00\x01\x08\x00"),
        (Cause::MemoryAbove, b"Y\x0F\x01\x00\x00"),
        (Cause::RunsAbove, b"Y\x0E\x01\xB9\x0B"),
        (Cause::EndInside, b"V\x00\x00\x00\x00\x00"),
        (Cause::WrongSwitch, b"V\x02"),
        (Cause::PhaseAbove, b"V\x00\x00\x00\x00\x00\x00\x00\x08"),
    ];
    let good = good_ones();
    let mut all: Vec<Small> = broken.iter().map(|(cause, broken)| after(&good, *cause, broken)).collect();
    // Nothing behind a script error is played.
    all.push(after(&good, Cause::UnknownLetter, &[b"?", &good[0].0[..]].concat()));
    let many: Vec<_> = good.iter().cycle().take(101).cloned().collect();
    all.push(after(&many, Cause::UnknownLetter, b"?"));
    all
}

fn after(good: &[(Vec<u8>, String)], cause: Cause, broken: &[u8]) -> Small {
    let mut script: Vec<u8> = good.iter().flat_map(|(command, _)| command.clone()).collect();
    script.extend(broken);
    let lines: String = good.iter().map(|(_, line)| line.as_str()).collect();
    Small { cause: Some(cause), script, text: format!("{lines}script error at {}\n", good.len()) }
}

#[cfg(test)]
mod tests {
    use std::collections::BTreeSet;

    use super::*;

    #[test]
    fn the_interpreter_gives_the_lines() {
        for small in all() {
            assert_eq!(small.play().err(), None);
        }
    }

    /// Ten different ones, and what stands behind the error would be played without it.
    #[test]
    fn one_script_for_each_cause() {
        let causes: BTreeSet<Option<Cause>> = one_of_each().iter().map(|(_, small)| small.cause).collect();
        assert_eq!((causes.len(), causes.contains(&None)), (10, false));
        for (name, small) in one_of_each() {
            let behind = small.script.ends_with(b"D");
            assert_eq!(behind, small.cause != Some(Cause::EndInside), "{name}");
        }
    }

    #[test]
    fn other_lines_and_other_causes_are_found_out() {
        let right = || broken(Cause::UnknownLetter, b"?");
        assert!(right().play().is_ok());
        assert!(Small { cause: Some(Cause::EndInside), ..right() }.play().is_err());
        assert!(Small { cause: None, ..right() }.play().is_err());
        assert!(Small { text: String::new(), ..right() }.play().is_err());
    }
}
