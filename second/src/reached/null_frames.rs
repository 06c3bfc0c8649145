//! 02 C-16: writes by their null frame bit and payload, and null frames that are read whatever their payload.

use super::choices::any;
use super::given;
use super::Reached;
use crate::answer::{hex, Answer, UNTOUCHED};
use crate::cases::{BYTES, CANCELLING, NULL_FLAGS, SIZES, WRONG_SIZES};
use crate::draft::FOREIGN_CHANNELS;
use crate::faults::{WRONG_CYCLES, WRONG_IDS};
use crate::frame::{self, Indicators, HEADER_BYTES, LARGEST_PAYLOAD, NULL_FRAME_BIT, SMALLEST_FRAME, TRAILER_BYTES};
use crate::listed_frames::NOT_ZEROS;
use crate::payloads::places;
use crate::reason::Test;
use crate::refusal::Refusal;
use crate::scene::Kind;
use crate::script::{OnChannel, Write};
use crate::slot::SlotStatus;

/// What a whole frame's own bytes tell.
struct Look {
    reserved: bool,
    null: bool,
    size: usize,
    zeros: bool,
}

impl Look {
    /// The first and the third bit of all, and what lies between header and trailer.
    fn of(frame: &[u8]) -> Look {
        let payload = &frame[HEADER_BYTES..frame.len() - TRAILER_BYTES];
        Look {
            reserved: frame[0] & 0b1000_0000 != 0,
            null: frame[0] & 0b0010_0000 == 0,
            size: payload.len(),
            zeros: places(payload).is_empty(),
        }
    }

    /// The line of a write of all that was read.
    fn line_again(&self, frame: &[u8]) -> String {
        let untouched = hex(&vec![UNTOUCHED; frame.len()]);
        if self.reserved {
            return format!("write 12 0 {untouched}");
        }
        if self.null && !self.zeros {
            return format!("write 26 0 {untouched}");
        }
        format!("write 0 {} {}", frame.len(), hex(frame))
    }
}

impl Reached {
    pub(super) fn add_null_write(&mut self, write: &Write, number: u8) {
        let causes = frame::write_causes(write.channel, &write.given(), &write.payload, write.room);
        let (cause, others): (Vec<Refusal>, Vec<Refusal>) =
            causes.into_iter().partition(|cause| *cause == Refusal::NullFramePayload);
        if others.is_empty() {
            self.add_payload(write, number);
        }
        if let ([_], [other]) = (&cause[..], &others[..]) {
            for (part, value) in given::of_write(write) {
                self.add(format!("NullFramePayload beside {other:?} given {part} {value}: {number}"));
            }
        }
        let flags = write.given().indicators.flags();
        if let [_] = places(&write.payload)[..] {
            self.add(format!("one byte not 0 with flags {flags} on {}: {number}", write.channel));
        }
    }

    /// Of a write in which nothing but the payload can be wrong.
    fn add_payload(&mut self, write: &Write, number: u8) {
        let (channel, flags, size) = (write.channel, write.given().indicators.flags(), write.payload.len());
        let bit = format!("null frame bit {}", u8::from(flags & NULL_FRAME_BIT != 0));
        match places(&write.payload)[..] {
            [] => self.add(format!("{size} zeros with flags {flags} on {channel}: {number}")),
            [place] => {
                let (byte, payload) = (write.payload[place], format!("{bit}, {size} bytes"));
                self.add(format!("{payload}, not 0 at {place}: {number}"));
                self.add(format!("{payload}, not 0 at {place} on {channel}: {number}"));
                self.add(format!("{payload}, {byte} at {place} on {channel}: {number}"));
                self.add(format!("{payload}, one is {byte}: {number}"));
            }
            _ => self.add(format!("{bit}, bytes {} on {channel}: {number}", hex(&write.payload))),
        }
    }

    /// The last frame that was read is written again: the same bytes, with two exceptions and no third.
    pub(super) fn add_rewritten(&mut self, read: &OnChannel, answer: &Answer) {
        let look = Look::of(&read.bytes);
        if answer.line() != look.line_again(&read.bytes) {
            self.impossible.push(format!("{read:?} was read and gave {}", answer.line()));
        }
        let Look { reserved, null, size, zeros } = look;
        let frame = format!("{size} bytes, zeros: {zeros}, null: {null}, reserved: {reserved}");
        self.add(format!("{frame}, on {}, read and then written: {}", read.channel, answer.number()));
    }

    /// What an entry says of a null frame.
    pub(super) fn add_null_frame(&mut self, letter: char, channel: u8, frame: &[u8], number: u8) {
        if frame.len() < SMALLEST_FRAME {
            return;
        }
        let Look { null, size, zeros, .. } = Look::of(frame);
        if null {
            self.add(format!("{letter} of a null frame of {size} bytes, zeros: {zeros}, on {channel}: {number}"));
        }
    }

    pub(super) fn add_null_arrival(&mut self, status: &SlotStatus, frame: &[u8], missed: &[Test]) {
        let Look { null, size, zeros, .. } = Look::of(frame);
        if !null {
            return;
        }
        let slot = format!("{:?} on {:?}", Kind::of(status), status.channel);
        self.add_of('A', format!("{slot}: null frame, zeros: {zeros}, misses {missed:?}"));
        self.add_of('A', format!("{slot}: null frame of {size} bytes, zeros: {zeros}, misses {missed:?}"));
    }
}

/// A byte other than 0 at each place, 26 beside the borders of every other refusal, and frames of every sort that are
/// read and then written.
pub(super) fn required() -> Vec<String> {
    let (sizes, zeros) = (any(SIZES), any(NULL_FLAGS));
    let again = "on <0|1>, read and then written";
    let mut all = vec![
        format!("<0|{sizes}> zeros with flags <{zeros}> on <0|1>: 0"),
        format!("<0|{sizes}> bytes, zeros: true, null: true, reserved: false, {again}: 0"),
        format!("<{sizes}> bytes, zeros: false, null: true, reserved: false, {again}: 26"),
        format!("<{sizes}> bytes, zeros: false, null: false, reserved: false, {again}: 0"),
        format!("<{sizes}> bytes, zeros: false, null: <false|true>, reserved: true, {again}: 12"),
        format!("<R|P|E> of a null frame of <{sizes}> bytes, zeros: false, on <0|1>: 0"),
        format!("R of a null frame of <0|{sizes}> bytes, zeros: true, on <0|1>: 0"),
        "Y of a null frame of 4 bytes, zeros: false, on <0|1>: 0".to_string(),
        format!("Static on <A|B>: null frame of <{sizes}> bytes, zeros: false, misses []"),
        "Dynamic on <A|B>: null frame, zeros: false, misses [DynamicNull]".to_string(),
        format!("null frame bit 0, bytes {} on <0|1>: 26", hex(NOT_ZEROS.payload)),
    ];
    for (bit, number) in [(0, 26), (1, 0)] {
        all.extend(bytes().map(|payload| format!("null frame bit {bit}, {payload}: {number}")));
    }
    all.extend((0..32).map(|flags| format!("one byte not 0 with flags {flags} on <0|1>: {}", by_flags(flags))));
    all.extend(beside_others().map(|other| format!("NullFramePayload beside {other}")));
    all
}

fn bytes() -> impl Iterator<Item = String> {
    let (sizes, bytes, last) = (any(SIZES), any(BYTES), LARGEST_PAYLOAD - 1);
    let places = SIZES.map(|size| format!("{size} bytes, not 0 at <0..{}>", size - 1));
    let more = [
        format!("2 bytes, <{bytes}> at <0..1> on <0|1>"),
        format!("4 bytes, <{bytes}> at <0..3> on <0|1>"),
        format!("{LARGEST_PAYLOAD} bytes, not 0 at <0|{last}> on <0|1>"),
        format!("<{sizes}> bytes, one is <{bytes}>"),
    ];
    let cancelling = CANCELLING.map(|payload| format!("bytes {} on <0|1>", hex(payload)));
    places.into_iter().chain(more).chain(cancelling)
}

/// The answer where nothing else is wrong than flags and payload.
fn by_flags(flags: u8) -> u8 {
    match Indicators::from_flags(flags) {
        bits if bits.startup_without_sync() => 7,
        bits if bits.reserved => 12,
        bits if !bits.null_frame => 26,
        _ => 0,
    }
}

/// With one other cause alone; only that of the output is told behind 26.
fn beside_others() -> impl Iterator<Item = String> {
    let all = [
        format!("Channel given channel <{}>: 1", any(FOREIGN_CHANNELS)),
        format!("IdGiven given id <{}>: 9", any(WRONG_IDS)),
        format!("PayloadToWrite given payload <{}>: 10", any(WRONG_SIZES)),
        format!("Cycle given cycle <{}>: 11", any(WRONG_CYCLES)),
        "StartupWithoutSync given flags <16|18>: 7".to_string(),
        "ReservedToWrite given flags <1|3|9|11|25|27>: 12".to_string(),
        format!("Output given room <0|{SMALLEST_FRAME}>: 26"),
        "Output given spare room -1: 26".to_string(),
    ];
    all.into_iter()
}
