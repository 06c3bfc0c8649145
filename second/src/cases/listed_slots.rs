//! The sixteen ways in which valid, syntax error, content error and boundary violation can stand (002 Table 9-2).

use crate::channel::Channel;
use crate::draft::Draft;
use crate::listed_frames::{SHORT, STARTUP};
use crate::plan::{Expected, Plan};
use crate::script::{Command, Opening};
use crate::settings::Settings;
use crate::sheet_mark::USUAL;

/// Slot 1 is static, its frames have no words: the shortest listed frame is good in it, in cycle 0.
const SETTINGS: Settings = Settings { fields: [1, 2, 3, 4, 5, 6, 7, 8, 9, 0, 11], sends_sync: false, mark: USUAL };

const CLOCK: &str = "clock 0 0 0 0 0 0 0 0 0 0 0 0 0 0 0 0 0 EVEN 0 ODD 0 0 EVEN ODD";

/// What can happen, each with a letter for it.
fn happening(letter: char, channel: Channel) -> Command {
    match letter {
        'v' => Command::Arrived(SHORT.bytes(channel)),
        // Good as well, with other bits that no header checksum covers: a null frame with the preamble bit.
        'w' => Command::Arrived(Draft::plain(channel, 0b00010, SHORT.id, 0, SHORT.cycle).bytes()),
        // The other channel's frame can't be read.
        's' => Command::Arrived(SHORT.bytes(channel.other())),
        // ID 3 in slot 1.
        'c' => Command::Arrived(STARTUP.bytes(channel)),
        'x' => Command::OwnSending,
        _ => Command::Boundary,
    }
}

/// 02 C-18: what that frame tells on A and on B; nothing else here tells anything.
const STRANGE: [&str; 2] = ["3920015 13655786", "13655786 3920015"];

/// What happens, and marks, reason, kept switch and kept frame afterwards.
const WAYS: [(&str, &str); 16] = [
    ("", "0 0 0 0 0 0 0 0"),
    ("b", "4 0 0 0 0 0 0 0"),
    ("c", "2 1 0 0 0 0 0 0"),
    ("cb", "6 1 0 0 0 0 0 0"),
    ("s", "1 0 0 0 0 0 0 0"),
    ("sb", "5 0 0 0 0 0 0 0"),
    ("sc", "3 1 0 0 0 0 0 0"),
    ("scb", "7 1 0 0 0 0 0 0"),
    ("v", "16 0 1 4 1 0 1695 0"),
    ("vb", "20 0 1 4 1 0 1695 0"),
    ("vc", "18 1 1 4 1 0 1695 0"),
    ("vcb", "22 1 1 4 1 0 1695 0"),
    ("vs", "17 0 1 4 1 0 1695 0"),
    ("vsb", "21 0 1 4 1 0 1695 0"),
    ("vsc", "19 1 1 4 1 0 1695 0"),
    ("vscb", "23 1 1 4 1 0 1695 0"),
];

/// 002 6.2.3: bad syntax and then a good frame leave no content error, bad content and then a good one no syntax error.
const BEFORE_A_GOOD_ONE: [(&str, &str); 2] = [("sv", "17 0 1 4 1 0 1695 0"), ("cv", "18 1 1 4 1 0 1695 0")];

/// No clock is loaded yet.
pub fn add(plan: &mut Plan) {
    for channel in Channel::BOTH {
        for (letters, shown) in WAYS {
            let backwards: String = letters.chars().rev().collect();
            for letters in [letters, &backwards] {
                add_way(plan, channel, letters, shown);
            }
        }
        for (letters, shown) in BEFORE_A_GOOD_ONE {
            add_way(plan, channel, letters, shown);
        }
    }
}

pub(super) fn add_way(plan: &mut Plan, channel: Channel, letters: &str, shown: &str) {
    let opening = Opening { settings: SETTINGS, channel: channel.number(), slot: 1, cycle: 0 };
    plan.add(Command::OpenSlot(opening), Expected::line("slot 0 0"));
    for letter in letters.chars() {
        plan.add(happening(letter, channel), Expected::line("event 0"));
    }
    let number = channel.number();
    let checksums = if letters.contains('s') { STRANGE[usize::from(number)] } else { "0 0" };
    let line = format!("{CLOCK}\nstatus 1 2 3 4 5 6 7 8 9 0 11 0 {number} 1 0 {shown} {USUAL} {checksums}");
    plan.add(Command::Show, Expected::Line(line));
}
