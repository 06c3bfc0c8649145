//! What small scripts must reach of the ways in which a script can end.

use super::choices::any;
use super::Reached;
use crate::errors::{CHANNEL, CLOSED, KEPT, OPEN, PHASE, READER_CHANNEL, REALIGNS, SENDS_SYNC, UNKNOWN_LETTERS, VOTED};
use crate::script::{Broken, Cause};

impl Reached {
    pub fn add_end(&mut self, end: Option<Broken>) {
        *self.ends.entry(end.map(|broken| broken.cause)).or_default() += 1;
        match end {
            None => self.add("end of a whole script".to_string()),
            Some(Broken { cause, letter, place }) => {
                self.add(format!("{letter:?} ends by {cause:?}"));
                self.add(format!("{letter:?} ends by {cause:?} at {place}"));
            }
        }
    }

    /// How many scripts ended in each way.
    pub(super) fn summary_of_ends(&self) -> String {
        let name = |cause: &Option<Cause>| cause.map_or("none".to_string(), |cause| format!("{cause:?}"));
        let counts: Vec<String> = self.ends.iter().map(|(cause, count)| format!("{}: {count}", name(cause))).collect();
        format!("ends  {}", counts.join(", "))
    }
}

pub(super) fn required() -> Vec<String> {
    let mut all = vec![
        "end of a whole script".to_string(),
        "'<F|R|W|A|P|E>' ends by SizeAbove".to_string(),
        "'<W|E>' ends by RoomAbove".to_string(),
        "'T' ends by ReasonAbove".to_string(),
        // B, X, D and Z have no bytes behind their letter.
        "'<F|R|W|P|E|S|A|T|L|O|M|C|K|H|Y|V>' ends by EndInside".to_string(),
        "'Y' ends by <MemoryAbove|RunsAbove|SamplesAbove>".to_string(),
        // Letter, room (2), runs (2) and all but the last byte of two runs; letter and all but the last byte of a reader.
        "'Y' ends by EndInside at <0..7>".to_string(),
        "'V' ends by EndInside at <0..15>".to_string(),
        format!("'V' ends by WrongSwitch at <{READER_CHANNEL}|{VOTED}|{REALIGNS}>"),
        format!("'V' ends by PhaseAbove at {PHASE}"),
        // Letter, channel, start, size (2), a frame of 8 bytes and all but the last byte of the room.
        "'E' ends by EndInside at <0..13>".to_string(),
        // Right before the mark and inside it. In `T` both checksums follow, and in `K` the pairs of both lists: the places
        // are those before and inside the first and the last one, and in each of the others before it and inside both of
        // its marks.
        "'L' ends by EndInside at <45..48>".to_string(),
        "'S' ends by EndInside at <49..52>".to_string(),
        "'T' ends by EndInside at <59..70>".to_string(),
        "'K' ends by EndInside at <385..396|621..628>".to_string(),
        format!(
            "'K' ends by EndInside at <{}>",
            any((0..30).flat_map(|pair| [0, 1, 5].map(|byte| 389 + 8 * pair + byte)))
        ),
        format!("'<L|S|K|T>' ends by WrongSwitch at {SENDS_SYNC}"),
        format!("'K' ends by WrongSwitch at <{OPEN}|{CLOSED}>"),
        format!("'T' ends by WrongSwitch at <{CHANNEL}|{KEPT}>"),
    ];
    all.extend(UNKNOWN_LETTERS.iter().map(|letter| format!("{:?} ends by UnknownLetter", char::from(*letter))));
    all
}
