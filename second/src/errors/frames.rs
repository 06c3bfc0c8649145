//! 02 C-18: small scripts for a player that knows the commands of frames alone, one for each way in which one can end.

use super::{bytes_of, frame, whole, Small};
use crate::script::{Cause, Command, Write, LIMIT};

/// Played before the error: one of each letter.
fn before() -> Vec<u8> {
    let commands = [Command::checksum(0, b"123456789"), Command::read(0, &frame()), Command::bench(0, &frame())];
    commands.iter().flat_map(bytes_of).collect()
}

const LINES: &str = "checksum 0 7961021
read 0 0 0 1 0 0 1 0 1695 0 - 0 0
accepted 1 0 0
script error at 3
";

/// With a name for each.
pub fn of_frames() -> Vec<(String, Small)> {
    let mut all = vec![("empty".to_string(), whole(&[], ""))];
    all.extend(unknown_letters());
    all.extend(sizes_above());
    all.extend(ends_inside());
    all
}

fn behind_good_ones(cause: Cause, error: &[u8]) -> Small {
    Small { cause: Some(cause), script: [&before(), error].concat(), text: LINES.to_string() }
}

/// What stands behind the error would be played without it.
fn before_a_good_one(cause: Cause, error: &[u8]) -> Small {
    behind_good_ones(cause, &[error, &bytes_of(&Command::checksum(0, &[]))].concat())
}

/// One that no player knows, and two that others know: with bytes behind it and without any.
fn unknown_letters() -> [(String, Small); 3] {
    let write = Write { channel: 0, flags: 0b00100, id: 1, cycle: 0, payload: vec![1, 2], room: 10 };
    let letters = [
        ("unknown_letter", b"Q".to_vec()),
        ("letter_w", bytes_of(&Command::Write(write))),
        ("letter_d", bytes_of(&Command::Show)),
    ];
    letters.map(|(name, error)| (name.to_string(), before_a_good_one(Cause::UnknownLetter, &error)))
}

fn name_of(what: &str, command: &Command) -> String {
    format!("{what}_{}", command.letter().to_ascii_lowercase())
}

fn sizes_above() -> [(String, Small); 3] {
    let bytes = vec![0; LIMIT + 1];
    [Command::checksum(0, &bytes), Command::read(0, &bytes), Command::Bench(bytes)].map(|command| {
        let name = name_of(&format!("size_above_{LIMIT}"), &command);
        (name, before_a_good_one(Cause::SizeAbove, &bytes_of(&command)))
    })
}

/// Every place at which a command can be cut off, named by how many bytes of it are there.
fn ends_inside() -> Vec<(String, Small)> {
    let mut all = Vec::new();
    for command in [Command::checksum(0, &[1, 2]), Command::read(0, &frame()), Command::bench(0, &frame())] {
        let script = bytes_of(&command);
        for size in 1..script.len() {
            let name = format!("{}_{size}", name_of("end_inside", &command));
            all.push((name, behind_good_ones(Cause::EndInside, &script[..size])));
        }
    }
    all
}

#[cfg(test)]
mod tests {
    use std::collections::BTreeSet;

    use super::*;
    use crate::script::Letters;

    #[test]
    fn a_player_of_frames_gives_the_lines() {
        for (name, small) in of_frames() {
            assert_eq!(small.play_by(Letters::Frames).err(), None, "{name}");
        }
    }

    /// By a player of all letters the two that are known to it are played.
    #[test]
    fn letters_are_known_to_others() {
        for (name, small) in of_frames() {
            assert_eq!(small.play().is_ok(), !["letter_w", "letter_d"].contains(&name.as_str()), "{name}");
        }
    }

    #[test]
    fn names_are_different() {
        let names: BTreeSet<String> = of_frames().into_iter().map(|(name, _)| name).collect();
        // Letter, channel, size and two bytes; the same with eight bytes; and letter, size and nine bytes.
        assert_eq!(names.len(), 1 + 3 + 3 + (5 + 11 + 11));
        assert_eq!(names.len(), of_frames().len());
    }
}
