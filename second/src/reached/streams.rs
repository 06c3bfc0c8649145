//! Encodings: start lengths in rooms of every sort, streams that are known, and what the output says of them.

use super::choices::any;
use super::Reached;
use crate::answer::{Answer, UNTOUCHED};
use crate::faults::WRONG_STARTS;
use crate::listed_streams::{self, ListedStream};
use crate::script::Encode;
use crate::wire;

impl Reached {
    pub(super) fn add_encode(&mut self, encode: &Encode, answer: &Answer) {
        let Answer::Encode(found, output) = answer else {
            return;
        };
        let (number, start) = (answer.number(), encode.start);
        // What comes out is told here from the output's own bits, and must be what was given.
        if Output::of(found.ok(), output) != Output::demanded(encode, found.is_ok()) {
            self.impossible.push(format!("{encode:?} gave {}", answer.line()));
        }
        self.add_listed('E', encode.channel, &encode.frame, number);
        self.add_null_frame('E', encode.channel, &encode.frame, number);
        self.add(format!("start {start} in {}: {number}", room_of(encode)));
        for (place, stream) in listed_streams::all().enumerate().filter(|(_, stream)| is_of(stream, encode)) {
            let spare = encode.room as i64 - stream.packed().len() as i64;
            self.add(format!("listed stream {place} with {spare} bytes to spare: {number}"));
        }
    }
}

fn is_of(stream: &ListedStream, encode: &Encode) -> bool {
    (stream.channel.number(), stream.start) == (encode.channel, encode.start) && stream.frame_bytes() == encode.frame
}

fn room_of(encode: &Encode) -> &'static str {
    let packed = wire::packed_size(encode.start, encode.frame.len());
    match encode.room {
        0 => "no room",
        room if room + 1 == packed => "a byte less",
        room if room < packed => "less room",
        room if room == packed => "just room",
        _ => "more room",
    }
}

/// What an output says.
#[derive(Debug, PartialEq, Eq)]
enum Output {
    Untouched,
    Stream { start: usize, frame: Vec<u8> },
    Strange,
}

impl Output {
    /// With as many bits at its front, or none after a refusal.
    fn of(bits: Option<usize>, output: &[u8]) -> Output {
        let bits = bits.unwrap_or(0);
        let (packed, behind) = output.split_at(bits.div_ceil(8));
        let written: String = packed.iter().map(|byte| format!("{byte:08b}")).collect();
        let (stream, spare) = written.split_at(bits);
        if spare.contains('1') || behind.iter().any(|byte| *byte != UNTOUCHED) {
            return Output::Strange;
        }
        if packed.is_empty() {
            return Output::Untouched;
        }
        taken_apart(stream).map_or(Output::Strange, |(start, frame)| Output::Stream { start, frame })
    }

    fn demanded(encode: &Encode, accepted: bool) -> Output {
        if accepted {
            return Output::Stream { start: encode.start.into(), frame: encode.frame.clone() };
        }
        Output::Untouched
    }
}

/// The low bits up to the first high one, and the bytes between that and the end.
fn taken_apart(stream: &str) -> Option<(usize, Vec<u8>)> {
    let (start, rest) = stream.split_once('1')?;
    let bytes = rest.strip_suffix("01")?;
    let groups = (0..bytes.len()).step_by(10).map(|place| bytes.get(place..place + 10)?.strip_prefix("10"));
    let frame: Option<Vec<u8>> = groups.map(|group| u8::from_str_radix(group?, 2).ok()).collect();
    Some((start.len(), frame?))
}

/// Every start length that is right with its border of room, and 24 and the refusals of a read before everything behind
/// them.
pub(super) fn required() -> Vec<String> {
    let (wrong, rooms) = (any(WRONG_STARTS), "no room|a byte less|just room|more room");
    let highest = listed_streams::all().count() - 1;
    vec![
        "start <1..15> in <just room|more room>: 0".to_string(),
        "start <1..15> in <no room|a byte less>: 25".to_string(),
        format!("start <{wrong}> in <{rooms}>: 24"),
        format!("start <1|15|{wrong}> in <{rooms}>: <1..8>"),
        format!("listed stream <0..{highest}> with <0|1> bytes to spare: 0"),
        format!("listed stream <0..{highest}> with -1 bytes to spare: 25"),
    ]
}

#[cfg(test)]
mod tests {
    use super::*;

    #[test]
    fn outputs_by_hand() {
        let taken = |groups: [&str; 4]| taken_apart(&groups.concat());
        assert_eq!(taken(["001", "1011110000", "1000000001", "01"]), Some((2, vec![0xF0, 0x01])));
        assert_eq!(taken(["001", "1011110000", "1000000001", "10"]), None);
        assert_eq!(taken(["001", "1011110000", "1100000001", "01"]), None);
        assert_eq!(taken(["001", "0011110000", "1000000001", "01"]), None);
        assert_eq!(taken(["001", "1011110000", "100000001", "01"]), None);
        assert_eq!(taken(["000", "0000000000", "0000000000", "00"]), None);
        assert_eq!(taken_apart("00101"), Some((2, vec![])));
        assert_eq!(Output::of(None, &[UNTOUCHED; 2]), Output::Untouched);
        assert_eq!(Output::of(None, &[UNTOUCHED, 0]), Output::Strange);
        assert_eq!(Output::of(Some(4), &[0b0101_0000, UNTOUCHED]), Output::Stream { start: 1, frame: vec![] });
        assert_eq!(Output::of(Some(4), &[0b0101_0101, UNTOUCHED]), Output::Strange);
        assert_eq!(Output::of(Some(4), &[0b0101_0000, 0]), Output::Strange);
        assert_eq!(Output::of(Some(4), &[0b0110_0000, UNTOUCHED]), Output::Strange);
    }
}
