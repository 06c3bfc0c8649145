//! Script errors in the commands of the reader of the wire, and bytes in them that look wrong but are no error.

use super::{broken, bytes_of, changed, whole, Small};
use crate::channel::Channel;
use crate::reader_numbers::{ReaderNumbers, BYTE};
use crate::samples;
use crate::script::{Cause, Command, Listen, Run, MEMORY, MOST_RUNS, MOST_SAMPLES};

/// Where a byte stands in `V`, the letter at place 0.
pub const READER_CHANNEL: usize = 1;
const SAMPLES: usize = 2;
const SEEN: usize = 3;
pub const VOTED: usize = 4;
const COUNTER: usize = 5;
pub const REALIGNS: usize = 6;
const TIMER: usize = 7;
pub const PHASE: usize = 8;
const NUMBER: usize = 9;
const VALUE: usize = 10;

/// In the middle of the eighth byte of a frame on B.
pub const READER: ReaderNumbers = ReaderNumbers {
    channel: Channel::B,
    samples: 10,
    seen: 4,
    voted: true,
    counter: 3,
    realigns: false,
    timer: 12,
    phase: BYTE,
    number: 3,
    value: 5,
    count: 7,
    since: 600,
};

/// Its numbers as they are shown.
const NUMBERS: &str = "1 10 4 1 3 0 12 5 3 5 7 600";

/// Shown before anything was heard.
fn shown(numbers: &str) -> String {
    format!("reader {numbers} {}\n", "a5".repeat(MEMORY))
}

/// Commands of every letter with their lines. The reader of all zeros is held before them and behind them; the memory that
/// is shown has the frame at its front.
pub(super) fn good_ones() -> Vec<(Command, String)> {
    let stream = samples::short_stream(Channel::A);
    let heard = "heard 0 767 632 0 0 1 0 0 1 0 1695 0 200101a7c0d05eea 0 0\nheard 0 9 0 0\n";
    let shown = format!("reader 0 15 4 1 7 1 9 0 0 0 0 0 200101a7c0d05eea{}\n", "a5".repeat(MEMORY - 8));
    let line = |line: &str| line.to_string();
    vec![
        (Command::listen(&[]), line("heard 23 0 0 0\n")),
        (Command::OpenReader(0), line("reader 0\n")),
        (Command::listen(&stream), line(heard)),
        (Command::ShowReader, shown),
        (Command::PutReader(READER), line("reader put\n")),
        (Command::Listen(Listen { room: 261, runs: vec![] }), line("heard 36 0 0 0\n")),
        (Command::Listen(Listen { room: 262, runs: vec![Run { sample: 1, times: 0 }] }), line("heard 0 0 0 0\n")),
        (Command::OpenReader(2), line("reader 1\n")),
    ]
}

/// Every place at which a command can be cut off.
pub(super) fn ends_inside() -> Vec<Small> {
    let two_runs = vec![Run { sample: 1, times: 9 }, Run { sample: 0, times: 7 }];
    let whole = [
        Command::OpenReader(0),
        Command::Listen(Listen { room: MEMORY, runs: vec![] }),
        Command::Listen(Listen { room: MEMORY, runs: two_runs }),
        Command::PutReader(READER),
    ];
    let mut all = Vec::new();
    for script in whole.map(|command| bytes_of(&command)) {
        all.extend((1..script.len()).map(|size| broken(Cause::EndInside, &script[..size])));
    }
    // Neither a foreign channel nor a room that is too short is an answer while the command isn't whole.
    all.push(broken(Cause::EndInside, b"Y\x00\x00\x01\x00\x01"));
    // Numbers that the phase doesn't have must be there as well.
    let waiting = bytes_of(&Command::PutReader(ReaderNumbers { phase: 0, ..READER }));
    all.extend((1..waiting.len()).map(|size| broken(Cause::EndInside, &waiting[..size])));
    all
}

/// As many runs of one sample.
pub fn many_runs(runs: usize, times: u8) -> Listen {
    Listen { room: MEMORY, runs: vec![Run { sample: 1, times }; runs] }
}

/// So many samples in as few runs as can be.
pub fn many_samples(samples: usize) -> Listen {
    Listen { room: MEMORY, runs: samples::runs(&vec![1; samples]) }
}

/// Rooms, runs and samples above their limits, with and without bytes behind them.
pub(super) fn too_large() -> Vec<Small> {
    let mut all = Vec::new();
    for room in [MEMORY as u16 + 1, 600, u16::MAX] {
        let room = room.to_le_bytes();
        all.push(broken(Cause::MemoryAbove, &[b"Y", &room[..]].concat()));
        all.push(broken(Cause::MemoryAbove, &[b"Y", &room[..], b"\x01\x00\x01\x08Z"].concat()));
    }
    for runs in [MOST_RUNS as u16 + 1, MOST_SAMPLES as u16 + 1, u16::MAX] {
        all.push(broken(Cause::RunsAbove, &[b"Y\x0E\x01", &runs.to_le_bytes()[..]].concat()));
    }
    // What stands behind the error would be played without it.
    for (cause, listen) in [
        (Cause::RunsAbove, many_runs(MOST_RUNS + 1, 0)),
        (Cause::SamplesAbove, many_samples(MOST_SAMPLES + 1)),
        (Cause::SamplesAbove, many_runs(MOST_RUNS, 9)),
    ] {
        all.push(broken(cause, &[bytes_of(&Command::Listen(listen)), b"Z".to_vec()].concat()));
    }
    all
}

/// A reader is put and shown before the command, and shown behind it.
fn with_byte(place: usize, byte: u8, lines: &str) -> Small {
    let put = Command::PutReader(READER);
    let script = [&bytes_of(&put)[..], b"Z", &changed(&put, place, byte), b"Z"].concat();
    whole(&script, &format!("reader put\n{}{lines}", shown(NUMBERS)))
}

/// The same where the byte is an error.
fn with_wrong_byte(place: usize, byte: u8, cause: Cause) -> Small {
    Small { cause: Some(cause), ..with_byte(place, byte, "script error at 2\n") }
}

/// Switches that are neither 0 nor 1, and phases above 7.
pub(super) fn wrong_bytes() -> Vec<Small> {
    let mut all = Vec::new();
    for place in [READER_CHANNEL, VOTED, REALIGNS] {
        all.extend([2, 3, 128, 255].map(|byte| with_wrong_byte(place, byte, Cause::WrongSwitch)));
    }
    all.extend([8, 9, 128, 255].map(|byte| with_wrong_byte(PHASE, byte, Cause::PhaseAbove)));
    all
}

/// Numbers that may be any, and limits that are just kept.
pub(super) fn no_errors() -> Vec<Small> {
    let shown =
        |(place, byte, numbers): (usize, u8, &str)| with_byte(place, byte, &format!("reader put\n{}", shown(numbers)));
    let bytes = [
        (SAMPLES, 0xFA, NUMBERS),
        (SEEN, 255, "1 10 255 1 3 0 12 5 3 5 7 600"),
        (COUNTER, 255, "1 10 4 1 255 0 12 5 3 5 7 600"),
        (TIMER, 255, "1 10 4 1 3 0 255 5 3 5 7 600"),
        (PHASE, 7, "1 10 4 1 3 0 12 7 0 0 7 600"),
        (PHASE, 2, "1 10 4 1 3 0 12 2 3 0 7 600"),
        (NUMBER, 255, "1 10 4 1 3 0 12 5 255 5 7 600"),
        (VALUE, 255, "1 10 4 1 3 0 12 5 3 255 7 600"),
    ];
    let mut all: Vec<Small> = bytes.map(shown).into();
    let at_the_limit = [
        (many_runs(MOST_RUNS, 8), "heard 0 24000 0 0\n"),
        (many_runs(MOST_RUNS, 0), "heard 0 0 0 0\n"),
        (many_samples(MOST_SAMPLES), "heard 0 24000 0 0\n"),
        (Listen { room: 0, ..many_samples(1) }, "heard 36 0 0 0\n"),
    ];
    for (listen, line) in at_the_limit {
        let script = [b"H\x01".to_vec(), bytes_of(&Command::Listen(listen))].concat();
        all.push(whole(&script, &format!("reader 0\n{line}")));
        let cut = Small { cause: Some(Cause::EndInside), ..whole(&script[..script.len() - 1], "") };
        all.push(Small { text: "reader 0\nscript error at 1\n".to_string(), ..cut });
    }
    all.push(whole(b"H\xFFH\x02", "reader 1\nreader 1\n"));
    all
}
