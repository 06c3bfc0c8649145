//! Frames of many sizes that are right up to the header checksum or up to the trailer.

use super::add_refused;
use crate::channel::Channel;
use crate::draft::Draft;
use crate::frame::MOST_WORDS;
use crate::plan::Plan;
use crate::random::Random;
use crate::unreadable::Unreadable;

const WORDS: [u8; 7] = [0, 1, 2, 3, 64, MOST_WORDS - 1, MOST_WORDS];

/// Of the frames with so many words.
pub const SIZES: [usize; 7] = [8, 10, 12, 14, 136, 260, 262];

pub(super) fn add(plan: &mut Plan, random: &mut Random) {
    for channel in Channel::BOTH {
        for words in WORDS {
            let fair = Draft::fair(random, channel, words);
            for wrong in wrong_frames(&fair) {
                add_refused(plan, &wrong.on_channel(), wrong.refusal.number(), wrong.checksums);
            }
        }
    }
}

/// A good frame with bits of either checksum turned over: one at each end, all of them, and all that are 1, so that 0 is
/// found; and the frame with the trailer of the other channel.
pub fn wrong_frames(fair: &Draft) -> Vec<Unreadable> {
    let channel = fair.channel;
    let (header, trailer) = (fair.header_checksums().expected as u16, fair.frame_checksums_on(channel).expected);
    let headers = [1, 0x400, 0x7FF, header].into_iter().filter(|change| *change != 0);
    let trailers = [1, 0x80_0000, 0xFF_FFFF, trailer].into_iter().filter(|change| *change != 0);
    let by_header = headers.map(|header_checksum_change| {
        let wrong = Draft { header_checksum_change, ..fair.clone() };
        Unreadable::by_header(&wrong)
    });
    let by_trailer = trailers.map(|frame_checksum_change| {
        let wrong = Draft { frame_checksum_change, ..fair.clone() };
        Unreadable::by_trailer(&wrong, channel)
    });
    let strange = Draft { channel: channel.other(), ..fair.clone() };
    by_header.chain(by_trailer).chain([Unreadable::by_trailer(&strange, channel)]).collect()
}
