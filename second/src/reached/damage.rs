//! Good frames with some of their bits wrong, found by comparing what was given with the frame that it should have been.

use super::Reached;
use crate::bits;
use crate::frame;
use crate::plan::{Entry, Expected};
use crate::script::Command;

impl Reached {
    pub(super) fn add_damage(&mut self, entry: &Entry) {
        let Expected::Damaged(good) = &entry.expected else {
            return;
        };
        let (channel, bytes) = match &entry.command {
            Command::Read(given) => (given.channel, &given.bytes[..]),
            Command::Bench(input) => (input[0], &input[1..]),
            _ => return,
        };
        if frame::read(channel, good).is_err() || good.len() != bytes.len() {
            return;
        }
        let places = differences(good, bytes);
        let letter = entry.command.letter();
        self.add(format!("{letter} of a frame of {} bytes with {} wrong bits", good.len(), places.len()));
        if let [first, .., last] = places[..] {
            let (length, holes) = (last - first + 1, places.len() <= last - first);
            self.add(format!("burst of {length} bits, holes: {holes}"));
        }
    }
}

/// The places of bits that differ, in sending order.
fn differences(one: &[u8], other: &[u8]) -> Vec<usize> {
    let (one, other) = (bits::of_bytes(one), bits::of_bytes(other));
    (0..one.len()).filter(|place| one[*place] != other[*place]).collect()
}

/// Bursts of up to 24 bits, one bit and two of short frames, and up to five of frames with 0, 3 and 124 words.
pub(super) fn required() -> Vec<String> {
    let all = [
        "burst of <2..24> bits, holes: false",
        "burst of <3..24> bits, holes: true",
        "R of a frame of <10|12> bytes with <1|2> wrong bits",
        "<R|P> of a frame of <8|14|256> bytes with <1..5> wrong bits",
    ];
    all.map(str::to_string).into()
}
