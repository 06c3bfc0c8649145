//! Streams that were worked out by hand: every room around them, wrong start lengths, and refused frames in their place.

use super::listed_frames::hex;
use crate::channel::Channel;
use crate::checksum_pair::ChecksumPair;
use crate::draft::FOREIGN_CHANNELS;
use crate::faults::WRONG_STARTS;
use crate::listed_frames;
use crate::listed_streams::{self, ListedStream};
use crate::plan::{Expected, Plan};
use crate::script::{Command, Encode, OnChannel, LIMIT};

pub fn add(plan: &mut Plan) {
    for stream in listed_streams::all() {
        add_rooms(plan, &stream);
        add_wrong_starts(plan, &stream);
        add_wrong_channels(plan, &stream);
    }
    for channel in Channel::BOTH {
        add_refused_frames(plan, channel);
    }
}

/// In a room for just the bytes that are listed.
fn exact(stream: &ListedStream) -> Encode {
    let (channel, frame) = (stream.channel.number(), stream.frame_bytes());
    Encode { channel, start: stream.start, frame, room: stream.packed().len() }
}

fn add_line(plan: &mut Plan, encode: Encode, line: String) {
    plan.add(Command::Encode(encode), Expected::Line(line));
}

/// 01 "Refusal numbers": a refusal alters nothing lent, and the number beside it is 0.
fn add_refused(plan: &mut Plan, encode: Encode, number: u8, checksums: ChecksumPair) {
    let line = format!("encode {number} 0 {} {checksums}", hex(&vec![0xA5; encode.room]));
    add_line(plan, encode, line);
}

/// The bytes behind the packed bits stay as they were lent.
fn add_rooms(plan: &mut Plan, stream: &ListedStream) {
    let exact = exact(stream);
    for spare in [0, 1, 9, LIMIT - exact.room] {
        let line = format!("encode 0 {} {}{} 0 0", stream.bits, hex(&stream.packed()), "a5".repeat(spare));
        add_line(plan, Encode { room: exact.room + spare, ..exact.clone() }, line);
    }
    for room in [0, 1, exact.room - 2, exact.room - 1] {
        add_refused(plan, Encode { room, ..exact.clone() }, 25, ChecksumPair::NONE);
    }
}

/// Refused without room, with one byte less than the packed bits would take, with just as many bytes and with more.
fn add_refused_in_any_room(plan: &mut Plan, given: &OnChannel, start: u8, number: u8, checksums: ChecksumPair) {
    let exact = Encode::exact(given.clone(), start);
    for room in [0, exact.room - 1, exact.room, exact.room + 2] {
        add_refused(plan, Encode { room, ..exact.clone() }, number, checksums);
    }
}

fn add_wrong_starts(plan: &mut Plan, stream: &ListedStream) {
    let given = OnChannel { channel: stream.channel.number(), bytes: stream.frame_bytes() };
    for start in WRONG_STARTS {
        add_refused_in_any_room(plan, &given, start, 24, ChecksumPair::NONE);
    }
}

/// The same frame on the other channel and on none.
fn add_wrong_channels(plan: &mut Plan, stream: &ListedStream) {
    let strange = Encode { channel: stream.channel.other().number(), ..exact(stream) };
    add_refused(plan, strange, 8, stream.frame.strange(stream.channel));
    for channel in FOREIGN_CHANNELS {
        add_refused(plan, Encode { channel, ..exact(stream) }, 1, ChecksumPair::NONE);
    }
}

/// Neither the start length nor the room is looked at where the frame is refused.
fn add_refused_frames(plan: &mut Plan, channel: Channel) {
    for (number, (given, checksums)) in (1..).zip(listed_frames::refused(channel)) {
        for start in WRONG_STARTS.into_iter().chain([1, 15]) {
            add_refused_in_any_room(plan, &given, start, number, checksums);
        }
    }
}
