//! The bench program by 01 "Numbers to check against", its line as 02 C-18 amends it: a channel byte and frame bytes in,
//! one line out.

use crate::frame::{self, Fields, LARGEST_FRAME};
use crate::refusal::Refusal;
use crate::refused::Refused;

/// The channel's byte and the longest frame.
pub const LONGEST_INPUT: usize = 1 + LARGEST_FRAME;

/// What the program finds in its whole input. In more input bytes than the longest the frame bytes are too many, so that
/// reading gives what 01 asks for: the channel is tested first, then comes 3.
pub fn read(input: &[u8]) -> Result<Fields, Refused> {
    // 01: no input counts as 1.
    let (channel, frame) = input.split_first().ok_or(Refusal::Channel)?;
    frame::read(*channel, frame)
}

/// Every cause for a refusal, in the order of a read.
pub fn causes(input: &[u8]) -> Vec<Refusal> {
    input.split_first().map_or(vec![Refusal::Channel], |(channel, frame)| frame::read_causes(*channel, frame))
}

/// The line without its line feed. Only the two refusals that tell checksums have more than their number on it.
pub fn line(answer: &Result<Fields, Refused>) -> String {
    match answer {
        Ok(fields) => format!("accepted {} {} {}", fields.id, fields.cycle, fields.words),
        Err(Refused { refusal, checksums }) if refusal.tells_checksums() => {
            format!("refused {} {checksums}", refusal.number())
        }
        Err(refused) => format!("refused {}", refused.number()),
    }
}
