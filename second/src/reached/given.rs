//! Numbers that entries are given: which of them must be taken, and which refused.

use super::choices::any;
use super::Reached;
use crate::answer::Answer;
use crate::bench::LONGEST_INPUT;
use crate::clock::{Times, LATEST};
use crate::closing::{Controls, CONTROLS};
use crate::draft::FOREIGN_CHANNELS;
use crate::frame::{
    Fields, Indicators, HIGHEST_CYCLE, HIGHEST_ID, LARGEST_FRAME, LARGEST_PAYLOAD, MOST_WORDS, SMALLEST_FRAME,
};
use crate::refusal::Refusal;
use crate::script::{Command, Encode, Opening, Write, LIMIT, MEMORY};
use crate::settings::{self, Settings, FIELDS};
use crate::sync_list::DEVIATIONS;
use crate::wire;

impl Reached {
    pub(super) fn add_given(&mut self, command: &Command, answer: &Answer) {
        let letter = command.letter();
        for (part, value) in parts(command, answer) {
            self.add(format!("{letter} given {part} {value}: {}", answer.number()));
        }
        if let Command::OpenSlot(Opening { settings, .. }) | Command::Load(settings) = command {
            self.add_of(letter, format!("{letter} with fields {:?} out of range", settings.out_of_range()));
        }
    }
}

/// Each with its name, and where a channel is given also as that of the channel.
fn parts(command: &Command, answer: &Answer) -> Vec<(String, i64)> {
    let plain = match (command, answer) {
        (Command::Checksum(given), _) => vec![("channel", given.channel.into())],
        (Command::Read(given), Answer::Read(found, _)) => {
            let size = ("size", given.bytes.len() as i64);
            let given = [("channel", given.channel.into()), size].into_iter().chain(leading_flags(&given.bytes));
            given.chain(found.iter().flat_map(of_fields)).collect()
        }
        (Command::Write(write), _) => of_write(write).into(),
        (Command::Bench(input), Answer::Bench(found)) => {
            let channel = input.first().map(|channel| ("channel", (*channel).into()));
            let size = ("size", input.len() as i64);
            [size].into_iter().chain(channel).chain(found.iter().flat_map(of_fields)).collect()
        }
        (Command::Encode(encode), Answer::Encode(found, _)) => {
            let given = of_encode(encode).into_iter().chain(leading_flags(&encode.frame));
            given.chain(found.iter().map(|bits| ("bits", *bits as i64))).collect()
        }
        (Command::OpenSlot(Opening { settings, channel, slot, cycle }), Answer::Opened(_, told)) => {
            let given = [("channel", (*channel).into()), ("slot", (*slot).into()), ("cycle", (*cycle).into())];
            return of_settings(settings, *told).into_iter().chain(with_channel(&given)).collect();
        }
        (Command::Load(settings), Answer::Loaded(_, told)) => return of_settings(settings, *told),
        (Command::OpenCycle(cycle), _) => vec![("cycle", (*cycle).into())],
        (Command::Measure(times), Answer::Measured(found)) => {
            of_times(times).chain(found.iter().map(|deviation| ("deviation", (*deviation).into()))).collect()
        }
        (Command::CloseCycle(controls), _) => of_controls(controls).collect(),
        (Command::OpenReader(channel), _) => vec![("channel", (*channel).into())],
        (Command::Listen(listen), _) => vec![("room", listen.room as i64), ("runs", listen.runs.len() as i64)],
        _ => Vec::new(),
    };
    with_channel(&plain)
}

fn with_channel(plain: &[(&str, i64)]) -> Vec<(String, i64)> {
    let mut all: Vec<(String, i64)> = plain.iter().map(|(part, value)| (part.to_string(), *value)).collect();
    if let Some((_, channel)) = plain.iter().find(|(part, _)| *part == "channel") {
        all.extend(plain.iter().map(|(part, value)| (format!("{part} on {channel}"), *value)));
    }
    all
}

/// The first five bits of a frame, as flags: sending order from the lowest bit up.
fn leading_flags(frame: &[u8]) -> Option<(&'static str, i64)> {
    frame.first().map(|first| ("flags", (first.reverse_bits() & 0b11111).into()))
}

fn of_fields(fields: &Fields) -> [(&'static str, i64); 3] {
    [("id", fields.id.into()), ("words", fields.words.into()), ("cycle", fields.cycle.into())]
}

pub(super) fn of_write(write: &Write) -> [(&'static str, i64); 8] {
    let [payload, room] = [write.payload.len(), write.room].map(|size| size as i64);
    [
        ("channel", write.channel.into()),
        ("flags", (write.flags & 0b11111).into()),
        ("unnamed flags", (write.flags >> 5).into()),
        ("id", write.id.into()),
        ("cycle", write.cycle.into()),
        ("payload", payload),
        ("room", room),
        ("spare room", room - payload - SMALLEST_FRAME as i64),
    ]
}

fn of_encode(encode: &Encode) -> [(&'static str, i64); 6] {
    let size = encode.frame.len();
    let [bits, packed] = [wire::bits_of(encode.start, size), wire::packed_size(encode.start, size)];
    [
        ("channel", encode.channel.into()),
        ("start", encode.start.into()),
        ("size", size as i64),
        ("room", encode.room as i64),
        ("spare room", encode.room as i64 - packed as i64),
        ("spare bits", (8 * packed - bits) as i64),
    ]
}

/// The field that is told with a refusal, or all of them.
fn of_settings(settings: &Settings, told: usize) -> Vec<(String, i64)> {
    let fields = if told > 0 { told..=told } else { 1..=FIELDS };
    let mut parts: Vec<_> = fields.map(|field| (format!("field {field}"), settings.signed(field))).collect();
    parts.push(("sync sender".to_string(), settings.sends_sync.into()));
    parts
}

/// Each time where the other one is right.
fn of_times(times: &Times) -> impl Iterator<Item = (&'static str, i64)> {
    let Times { observed, action_point } = *times;
    let all = [("observed", observed, action_point), ("action point", action_point, observed)];
    all.into_iter().filter(|(.., other)| *other <= LATEST).map(|(part, time, _)| (part, time.into()))
}

/// Each control where the other one is right.
fn of_controls(controls: &Controls) -> impl Iterator<Item = (&'static str, i64)> {
    let Controls { offset, rate } = *controls;
    let all = [("offset control", offset, rate), ("rate control", rate, offset)];
    all.into_iter().filter(|(.., other)| CONTROLS.contains(other)).map(|(part, control, _)| (part, control.into()))
}

/// Both ends of a range taken, what lies beside them refused, and so is the number farthest off.
fn ends(part: &str, (lowest, highest): (i64, i64), farthest: i64, refusal: Refusal) -> [String; 2] {
    let wrong: Vec<i64> =
        [lowest - 1, highest + 1, farthest].into_iter().filter(|value| *value != -1 || lowest < 0).collect();
    [format!("{part} <{lowest}|{highest}>: 0"), format!("{part} <{}>: {}", any(wrong), refusal.number())]
}

/// Every size of frame bytes, on both channels where it is taken; by 01 "Numbers to check against" no input counts as 1,
/// so that every size of an input has a refusal. Bench lines with a zero between and at the end of numbers.
pub(super) fn required() -> Vec<String> {
    let (id, cycle, words) = (i64::from(HIGHEST_ID), i64::from(HIGHEST_CYCLE), MOST_WORDS);
    let (odd, large, larger) = (LARGEST_PAYLOAD - 1, LARGEST_PAYLOAD + 1, LARGEST_PAYLOAD + 2);
    let (lowest, highest, latest) = (DEVIATIONS.start(), DEVIATIONS.end(), i64::from(LATEST));
    let mut all = vec![
        format!("<F|R|W|P|E|S|H> given channel <{}>: 1", any(FOREIGN_CHANNELS)),
        "H given channel <0|1>: 0".to_string(),
        format!("Y given room <{LARGEST_FRAME}|{}|{MEMORY}>: 0", LARGEST_FRAME + 1),
        format!("Y given room <0|1|{}>: 36", LARGEST_FRAME - 1),
        "Y given runs 0: <0|23|36>".to_string(),
        format!("R given id <1..{id}>: 0"),
        format!("<R|W|O> given cycle <0..{cycle}>: 0"),
        "W given unnamed flags <0..7>: <0|26>".to_string(),
        format!("W given payload <1|{odd}|{large}|{larger}|{LIMIT}>: 10"),
        "<W|E> given spare room <0|1>: 0".to_string(),
        "W given spare room -1: 13".to_string(),
        "W given room 0: 13".to_string(),
        "W given spare room <-1|0|1>: 26".to_string(),
        format!("P given id <1|10|100|101|110|1000|1001|1010|2000|{id}>: 0"),
        format!("P given cycle <0|1|10|20|{cycle}>: 0"),
        format!("P given words <0|1|10|20|100|101|110|{words}>: 0"),
        format!("S given slot on <0|1> <1|{id}>: 0"),
        format!("M given deviation <{lowest}|-{latest}|0|{highest}>: 0"),
        "C given <offset|rate> control -128: 21".to_string(),
    ];
    all.extend(ends("W given id", (1, id), u16::MAX.into(), Refusal::IdGiven));
    all.extend(ends("S given slot", (1, id), u16::MAX.into(), Refusal::IdGiven));
    all.extend(ends("<W|S|O> given cycle", (0, cycle), u8::MAX.into(), Refusal::Cycle));
    all.extend(ends("M given <observed|action point>", (0, latest), u32::MAX.into(), Refusal::Time));
    all.extend(ends("C given <offset|rate> control", (-1, 1), i8::MAX.into(), Refusal::Control));
    all.extend([flags(), sizes(), encodings(), settings()].concat());
    all
}

/// Every start length and every number of spare bits, on both channels; the numbers of bits are those that are known.
fn encodings() -> Vec<String> {
    let mut all = vec![
        "E given start on <0|1> <1..15>: 0".to_string(),
        "E given spare bits on <0|1> <0..7>: 0".to_string(),
        "E given bits <84|85|86|89|98|127|128|131>: 0".to_string(),
        "E given bits on <0|1> <84|2628|2631|2638>: 0".to_string(),
        "E given room on <0|1> <11|330>: 0".to_string(),
        "E given room on <0|1> <0|10|329>: 25".to_string(),
        "E given spare room -1: 25".to_string(),
        "E given size <0..7>: 2".to_string(),
        format!("E given size <9|261|263|264|{LIMIT}>: 3"),
    ];
    all.extend(ends("E given start", (1, 15), u8::MAX.into(), Refusal::StartLength));
    all
}

fn flags() -> Vec<String> {
    let of_flags = |flags| match Indicators::from_flags(flags) {
        bits if bits.startup_without_sync() => format!("<R|E> given flags {flags}: 7"),
        bits if bits.reserved => format!("<R|E> given flags {flags}: 0"),
        _ => format!("<R|W|E> given flags {flags}: 0"),
    };
    (0..32).map(of_flags).collect()
}

fn sizes() -> Vec<String> {
    let of_size = |size: usize| match size {
        _ if size < SMALLEST_FRAME => format!("R given size {size}: 2"),
        _ if size % 2 == 1 || size > LARGEST_FRAME => format!("R given size {size}: 3"),
        _ => format!("<R|E> given size on <0|1> {size}: 0"),
    };
    let of_input = |size: usize| match size {
        0 => "P given size 0: 1".to_string(),
        _ if size <= SMALLEST_FRAME => format!("P given size {size}: 2"),
        _ if size % 2 == 0 || size > LONGEST_INPUT => format!("P given size {size}: 3"),
        _ => format!("P given size <{size}: 4|on 0 {size}: 0|on 1 {size}: 0>"),
    };
    let payloads = (0..=LARGEST_PAYLOAD).step_by(2).map(|size| format!("W given payload on <0|1> {size}: 0"));
    (0..=LIMIT).flat_map(|size| [of_size(size), of_input(size)]).chain(payloads).collect()
}

/// The ends of every range, every field and every two fields out of range, and both kinds of node.
fn settings() -> Vec<String> {
    let mut all = vec!["<L|S> given sync sender <0|1>: 0".to_string()];
    for field in 1..=FIELDS {
        let (lowest, highest) = settings::ends(field);
        let part = format!("<L|S> given field {field}");
        all.extend(ends(&part, (lowest.into(), highest.into()), u32::MAX.into(), Refusal::Setting));
        all.push(format!("<L|S> with fields [{field}] out of range"));
        all.extend((field + 1..=FIELDS).map(|later| format!("<L|S> with fields [{field}, {later}] out of range")));
    }
    all
}
