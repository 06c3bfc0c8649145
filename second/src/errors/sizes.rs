//! Sizes and rooms at the limit and above it.

use super::{broken, bytes_of, encode, good_ones, whole, Small};
use crate::script::{Cause, Command, Encode, Write, LIMIT};

const TOO_LARGE: [u16; 3] = [LIMIT as u16 + 1, 1024, u16::MAX];

/// Sizes and rooms above the limit, with and without bytes behind them.
pub(super) fn too_large() -> Vec<Small> {
    const BEFORE_SIZE: [&[u8]; 6] = [b"F\x00", b"R\x01", b"W\x00\x04\x01\x00\x00", b"A", b"P", b"E\x00\x01"];
    const BEFORE_ROOM: [&[u8]; 2] = [b"W\x00\x04\x01\x00\x00\x02\x00\x11\x22", b"E\x00\x01\x02\x00\x11\x22"];
    let mut all = Vec::new();
    for number in TOO_LARGE {
        for before in BEFORE_SIZE {
            all.push(broken(Cause::SizeAbove, &[before, &number.to_le_bytes()].concat()));
        }
        for before in BEFORE_ROOM {
            all.push(broken(Cause::RoomAbove, &[before, &number.to_le_bytes()].concat()));
        }
    }
    for before in BEFORE_SIZE {
        all.push(broken(Cause::SizeAbove, &[before, &TOO_LARGE[0].to_le_bytes(), &[0; LIMIT + 3]].concat()));
    }
    // The bytes behind a room that is too large would be a good command.
    for before in BEFORE_ROOM {
        all.push(broken(Cause::RoomAbove, &[before, &TOO_LARGE[0].to_le_bytes(), &good_ones()[0].0].concat()));
    }
    all
}

/// The limit itself is no error, one byte missing below it is.
pub(super) fn at_the_limit() -> Vec<Small> {
    let no_payload = Write { channel: 0, flags: 1, id: 1, cycle: 0, payload: vec![], room: LIMIT };
    let no_room = Write { payload: vec![0; LIMIT], room: 0, ..no_payload.clone() };
    let untouched = format!("write 12 0 {}\n", "a5".repeat(LIMIT));
    let too_long = Encode { frame: vec![0; LIMIT], room: 0, ..encode() };
    let all_room = Encode { start: 0, room: LIMIT, ..encode() };
    let unencoded = format!("encode 24 0 {} 0 0\n", "a5".repeat(LIMIT));
    let refused = [
        (Command::checksum(2, &[0; LIMIT]), "checksum 1 0\n"),
        (Command::read(0, &[0; LIMIT]), "read 3 - 0 0\n"),
        (Command::Bench(vec![0; LIMIT]), "refused 3\n"),
        (Command::Arrived(vec![0; LIMIT]), "event 23\n"),
        (Command::Write(no_room), "write 10 0 -\n"),
        (Command::Write(no_payload), untouched.as_str()),
        (Command::Encode(too_long), "encode 3 0 - 0 0\n"),
        (Command::Encode(all_room), unencoded.as_str()),
    ];
    let mut all = Vec::new();
    for (script, line) in refused.map(|(command, line)| (bytes_of(&command), line)) {
        all.push(whole(&script, line));
        all.push(broken(Cause::EndInside, &script[..script.len() - 1]));
    }
    all
}
