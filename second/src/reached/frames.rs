//! Frames that are written and read back, and frames and checksums that are known.

use super::choices::any;
use super::Reached;
use crate::answer::{Answer, UNTOUCHED};
use crate::cases::{CHECK_VALUES, HEADER_CHECKSUMS, HEADER_REMAINDERS, REMAINDER};
use crate::channel::Channel;
use crate::draft::FOREIGN_CHANNELS;
use crate::frame::{Fields, TRAILER_BYTES};
use crate::listed_frames;
use crate::script::{OnChannel, Write};

impl Reached {
    pub(super) fn add_checksum(&mut self, given: &OnChannel, answer: &Answer) {
        if let Answer::Checksum(Ok(checksum)) = answer {
            self.add(format!("frame checksum {checksum:#x} on {}", given.channel));
            let trailer = &checksum.to_be_bytes()[4 - TRAILER_BYTES..];
            self.add_listed('F', given.channel, &[&given.bytes, trailer].concat(), 0);
        }
    }

    pub(super) fn add_read(&mut self, given: &OnChannel, answer: &Answer) {
        self.add_listed('R', given.channel, &given.bytes, answer.number());
        self.add_null_frame('R', given.channel, &given.bytes, answer.number());
        if self.written.as_ref() == Some(&given.bytes) {
            self.add(format!("written, then read: {}", answer.number()));
        }
        if let Answer::Read(Ok(fields), _) = answer {
            let Fields { indicators, id, words, header_checksum, .. } = *fields;
            let [sync, startup] = [indicators.sync, indicators.startup].map(u8::from);
            self.add(format!("header checksum {header_checksum:#x} of {sync} {startup} {id} {words}"));
            self.read = Some(given.clone());
        }
    }

    pub(super) fn add_write(&mut self, write: &Write, answer: &Answer) {
        self.add_null_write(write, answer.number());
        if let Some(read) = self.read.clone().filter(|read| Write::again(read).as_ref() == Some(write)) {
            self.add(format!("read, then written: {}", answer.number()));
            self.add_rewritten(&read, answer);
        }
        let Answer::Write(found, output) = answer else {
            return;
        };
        let (frame, behind) = output.split_at(found.unwrap_or(0));
        if !reads_as(write, frame) || behind.iter().any(|byte| *byte != UNTOUCHED) {
            self.impossible.push(format!("{write:?} gave {}", answer.line()));
        }
        if found.is_ok() {
            self.add_listed('W', write.channel, frame, 0);
            self.written = Some(frame.to_vec());
        }
    }

    pub(super) fn add_listed(&mut self, letter: char, given: u8, bytes: &[u8], number: u8) {
        for (place, frame) in listed_frames::ALL.iter().chain(&listed_frames::NULL_FRAMES).enumerate() {
            for channel in Channel::BOTH.into_iter().filter(|channel| frame.bytes(*channel) == bytes) {
                self.add(format!("{letter} of listed frame {place} for {channel:?} on {given}: {number}"));
            }
        }
    }
}

/// Whether a frame reads as all that was given to be written; nothing is there after a refusal.
fn reads_as(write: &Write, frame: &[u8]) -> bool {
    let read = OnChannel { channel: write.channel, bytes: frame.to_vec() };
    let named = write.given().indicators.flags();
    frame.is_empty() || Write::again(&read) == Some(Write { flags: named, room: frame.len(), ..write.clone() })
}

pub(super) fn required() -> Vec<String> {
    let foreign = any(FOREIGN_CHANNELS);
    let mut all: Vec<String> =
        ["written, then read: <0|8>", "read, then written: <0|12|26>"].map(str::to_string).into();
    for channel in Channel::BOTH {
        let (own, other) = (channel.number(), channel.other().number());
        let listed = format!("of listed frame <0..2> for {channel:?}");
        all.push(format!("<F|R|W|P|E> {listed} on {own}: 0"));
        // Behind those the null frames, the first of which is not written.
        all.push(format!("<R|P> of listed frame <3..5> for {channel:?} on {own}: 0"));
        all.push(format!("W of listed frame <4..5> for {channel:?} on {own}: 0"));
        all.push(format!("<R|P|E> {listed} on {other}: 8"));
        all.push(format!("<P|E> {listed} on <{foreign}>: 1"));
        let known = [0, REMAINDER, channel.start_value(), CHECK_VALUES[usize::from(own)]];
        all.extend(known.map(|checksum| format!("frame checksum {checksum:#x} on {own}")));
    }
    for (sync, startup, id, words, checksum) in HEADER_CHECKSUMS.into_iter().chain(HEADER_REMAINDERS) {
        all.push(format!("header checksum {checksum:#x} of {sync} {startup} {id} {words}"));
    }
    all
}
