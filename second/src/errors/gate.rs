//! One script for each kind of script error, and for each command that has a room, played beside the listed cases: good
//! commands, the error, a good command.

use super::reader::{many_runs, many_samples, PHASE, READER};
use super::{bytes_of, changed, encode, frame, Small, OPENING, REASON, SENDS_SYNC, SETTINGS, STATUS};
use crate::script::{Cause, Command, Encode, Listen, Write, LIMIT, MEMORY, MOST_RUNS, MOST_SAMPLES};

/// Played before the error.
fn before() -> Vec<u8> {
    let commands = [
        Command::checksum(0, b"123456789"),
        Command::bench(0, &frame()),
        Command::OpenSlot(OPENING),
        Command::Arrived(frame()),
        Command::Load(SETTINGS),
        Command::OpenCycle(4),
        Command::Show,
    ];
    commands.iter().flat_map(bytes_of).collect()
}

const LINES: &str = "checksum 0 7961021
accepted 1 0 0
slot 0 0
event 0
load 0 0
open 0
clock 1 2 3 4 5 6 7 8 9 0 11 1 1 4 0 0 0 EVEN 0 ODD 0 305419896 EVEN ODD
status 1 2 3 4 5 6 7 8 9 0 11 1 0 1 0 16 0 1 4 1 0 1695 0 305419896 0 0
script error at 7
";

/// Would write two lines more if a player went on to it.
const BEHIND: Command = Command::Show;

/// With a name for each. But for its fault each command would be good, and the one behind it is.
pub fn one_of_each() -> [(String, Small); 11] {
    let room_above = Write { channel: 0, flags: 0b00100, id: 1, cycle: 0, payload: vec![1, 2], room: LIMIT + 1 };
    let encode_above = Encode { room: LIMIT + 1, ..encode() };
    let listen = |listen| bytes_of(&Command::Listen(listen));
    let memory_above = Listen { room: MEMORY + 1, ..many_runs(1, 8) };
    let cases = [
        ("unknown_letter", Cause::UnknownLetter, b"Q".to_vec()),
        (&format!("size_above_{LIMIT}")[..], Cause::SizeAbove, bytes_of(&Command::read(0, &[0; LIMIT + 1]))),
        (&format!("room_above_{LIMIT}"), Cause::RoomAbove, bytes_of(&Command::Write(room_above))),
        (&format!("encode_room_above_{LIMIT}"), Cause::RoomAbove, bytes_of(&Command::Encode(encode_above))),
        ("wrong_switch", Cause::WrongSwitch, changed(&Command::Load(SETTINGS), SENDS_SYNC, 2)),
        ("reason_above_6", Cause::ReasonAbove, changed(&Command::PutStatus(STATUS), REASON, 7)),
        ("end_inside", Cause::EndInside, bytes_of(&Command::read(0, &frame()))),
        (&format!("memory_above_{MEMORY}"), Cause::MemoryAbove, listen(memory_above)),
        (&format!("runs_above_{MOST_RUNS}"), Cause::RunsAbove, listen(many_runs(MOST_RUNS + 1, 1))),
        (&format!("samples_above_{MOST_SAMPLES}"), Cause::SamplesAbove, listen(many_samples(MOST_SAMPLES + 1))),
        ("phase_above_7", Cause::PhaseAbove, changed(&Command::PutReader(READER), PHASE, 8)),
    ];
    cases.map(|(name, cause, error)| (name.to_string(), around(cause, &error)))
}

/// Behind an end there is nothing: that command lacks its last byte.
fn around(cause: Cause, error: &[u8]) -> Small {
    let script = match cause {
        Cause::EndInside => [&before(), &error[..error.len() - 1]].concat(),
        _ => [&before(), error, &bytes_of(&BEHIND)].concat(),
    };
    Small { cause: Some(cause), script, text: LINES.to_string() }
}
