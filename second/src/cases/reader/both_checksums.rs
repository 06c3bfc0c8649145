//! 02 C-18: what errors 4 and 8 tell: behind the fifth byte, at the end, in pieces, and by bytes that were not heard as the
//! reader says. No other error tells anything.

use super::put_readers::READY;
use super::{open, open_and_hear, put};
use crate::cases::both_checksums::wrong_frames;
use crate::channel::Channel;
use crate::checksum_pair::ChecksumPair;
use crate::draft::Draft;
use crate::frame::{Indicators, MOST_WORDS};
use crate::listed_frames::SHORT;
use crate::plan::{Expected, Plan};
use crate::random::Random;
use crate::reader_numbers::{ReaderNumbers, BYTE, END_LOW};
use crate::refusal::Refusal;
use crate::samples::{self, IDLE_BITS, LOW};
use crate::script::Command;
use crate::unreadable::Unreadable;

/// With the start length of three of all streams here.
const START: u8 = 3;

pub(super) fn add(plan: &mut Plan, random: &mut Random) {
    for channel in Channel::BOTH {
        for words in [0, 1, 3] {
            let wrong = wrong_frames(&Draft::fair(random, channel, words));
            wrong.iter().for_each(|wrong| add_wrong(plan, wrong));
        }
        add_longest(plan, random, channel);
        add_expected_0(plan, channel);
        add_silent(plan, random, channel);
        add_pieces(plan, channel);
        add_put_readers(plan, channel);
    }
}

/// The samples up to the one that tells the error; a bit is strobed in the seventh of its samples.
fn taken_for(wrong: &Unreadable) -> usize {
    let before_bytes = IDLE_BITS + usize::from(START) + 1;
    let bits = match wrong.refusal {
        Refusal::HeaderChecksum => before_bytes + 10 * 5,
        // The low bit of the end.
        _ => before_bytes + 10 * wrong.bytes.len() + 1,
    };
    8 * bits - 1
}

/// Nothing is told by what is left of the frame.
fn add_wrong(plan: &mut Plan, wrong: &Unreadable) {
    let stream = samples::behind_idle(START, &wrong.bytes);
    let (number, taken) = (wrong.refusal.number(), taken_for(wrong));
    let line = format!("heard {number} {taken} {}\nheard 0 {} 0 0", wrong.checksums, stream.len() - taken);
    open(plan, wrong.channel);
    plan.add(Command::listen(&stream), Expected::Line(line));
}

/// One of each error, as there are many samples in them.
fn add_longest(plan: &mut Plan, random: &mut Random, channel: Channel) {
    let fair = Draft::fair(random, channel, MOST_WORDS);
    let header = Draft { header_checksum_change: 0x210, ..fair.clone() };
    let trailer = Draft { frame_checksum_change: 0x01_0800, ..fair };
    add_wrong(plan, &Unreadable::by_header(&header));
    add_wrong(plan, &Unreadable::by_trailer(&trailer, channel));
}

/// Frames whose right header checksum and whose right trailer are 0.
fn add_expected_0(plan: &mut Plan, channel: Channel) {
    let plain = Draft::plain(channel, SHORT.flags, SHORT.id, 2, SHORT.cycle);
    let header = Draft { header_checksum_change: 0x7FF, ..plain.clone().with_id_for(0) };
    let trailer = Draft { frame_checksum_change: 0xFF_FFFF, ..plain.with_frame_checksum(0) };
    add_wrong(plan, &Unreadable::by_header(&header));
    add_wrong(plan, &Unreadable::by_trailer(&trailer, channel));
}

/// Errors 6 and 7 of frames whose trailer is wrong as well.
fn add_silent(plan: &mut Plan, random: &mut Random, channel: Channel) {
    let fair = Draft { frame_checksum_change: 0x42, ..Draft::fair(random, channel, 1) };
    let startup = Indicators { sync: false, startup: true, ..fair.indicators };
    let id_0 = Draft { id: 0, ..fair.clone() };
    let startup = Draft { indicators: startup, ..fair };
    add_wrong(plan, &Unreadable::silent(Refusal::IdRead, channel, id_0.bytes()));
    add_wrong(plan, &Unreadable::silent(Refusal::StartupWithoutSync, channel, startup.bytes()));
}

/// The last sample before an error alone, and the one that tells it.
fn add_pieces(plan: &mut Plan, channel: Channel) {
    let good = Draft::plain(channel, SHORT.flags, SHORT.id, 0, SHORT.cycle);
    let header = Unreadable::by_header(&Draft { header_checksum_change: 0x300, ..good.clone() });
    let trailer = Unreadable::by_trailer(&Draft { channel: channel.other(), ..good }, channel);
    for wrong in [header, trailer] {
        let stream = samples::behind_idle(START, &wrong.bytes);
        let (before, rest) = stream.split_at(taken_for(&wrong) - 2);
        let number = wrong.refusal.number();
        open_and_hear(plan, channel, before, &[]);
        plan.add(Command::listen(&rest[..1]), Expected::line("heard 0 1 0 0"));
        plan.add(Command::listen(&rest[1..2]), Expected::Line(format!("heard {number} 1 {}", wrong.checksums)));
        plan.add(Command::listen(&rest[2..]), Expected::Line(format!("heard 0 {} 0 0", rest.len() - 2)));
    }
}

/// The short frame lies in the memory, and each of these readers tells something with the next low sample: on the other
/// channel, with more bytes than there are, with a fifth byte that doesn't fit, and with that byte at the end.
fn add_put_readers(plan: &mut Plan, channel: Channel) {
    let at_end = ReaderNumbers { phase: END_LOW, count: 8, ..READY };
    let fifth = ReaderNumbers { phase: BYTE, number: 7, count: 4, ..READY };
    // 20 01 01 A7 with 40 in the place of C0.
    let wrong_fifth = ChecksumPair { found: 0x69D, expected: 0x69F };
    let cases = [
        (channel.other(), at_end, 8, SHORT.strange(channel)),
        (channel, ReaderNumbers { count: 9, ..at_end }, 3, ChecksumPair::NONE),
        (channel, ReaderNumbers { count: 10, ..at_end }, 5, ChecksumPair::NONE),
        (channel, ReaderNumbers { value: 0x20, ..fifth }, 4, wrong_fifth),
        (channel, at_end, 4, wrong_fifth),
    ];
    open_and_hear(plan, channel, &samples::short_stream(channel), &[0]);
    for (channel, numbers, number, checksums) in cases {
        put(plan, &ReaderNumbers { channel, ..numbers });
        plan.add(Command::listen(&[LOW]), Expected::Line(format!("heard {number} 1 {checksums}")));
    }
}
