//! 02 C-18: what a script for a player of frames must reach, of all that is counted elsewhere.

use super::{both_checksums, choices, Reached};
use crate::cases::CHECK_VALUES;
use crate::channel::Channel;
use crate::script::LIMIT;

impl Reached {
    pub fn missing_of_frames(&self) -> Vec<String> {
        self.missing_of(required())
    }

    pub fn summary_of_frames(&self) -> String {
        ['F', 'R', 'P'].map(|letter| self.summary_of(letter)).join("\n")
    }
}

/// Every answer on both channels and on none, sizes at both ends, and checksums that are known.
fn required() -> Vec<String> {
    let mut all = vec![
        "<F|R|P> given channel <0|1>: 0".to_string(),
        "<F|R|P> given channel <2|255>: 1".to_string(),
        "<R|P> given channel <0|1>: <2..8>".to_string(),
        "R given size <0..7>: 2".to_string(),
        format!("R given size <9|261|263|264|{LIMIT}>: 3"),
        "R given size on <0|1> <8|10|262>: 0".to_string(),
        "P given size 0: 1".to_string(),
        "P given size <1..8>: 2".to_string(),
        format!("P given size <10|262|264|265|{LIMIT}>: 3"),
        "P given size on <0|1> <9|11|263>: 0".to_string(),
        "line with <1..4>, <0..2> and <0..3> digits".to_string(),
    ];
    for channel in Channel::BOTH {
        let (own, other) = (channel.number(), channel.other().number());
        all.push(format!("<F|R|P> of listed frame <0..2> for {channel:?} on {own}: 0"));
        all.push(format!("<R|P> of listed frame <0..2> for {channel:?} on {other}: 8"));
        // Those of no bytes and of nine digits.
        let known =
            choices::any([channel.start_value(), CHECK_VALUES[usize::from(own)]].map(|value| format!("{value:#x}")));
        all.push(format!("frame checksum <{known}> on {own}"));
    }
    all.extend(both_checksums::of_frames("R|P"));
    all
}
