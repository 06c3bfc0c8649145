//! Readers that were put somewhere and hear samples: every state of the bit clock, either bit in every phase, counts at
//! their ends, and bytes that were not heard as the reader says.

use super::{hear, line_of, listed, open_and_hear, phases, put, show};
use crate::channel::Channel;
use crate::listed_frames::SHORT;
use crate::plan::{Expected, Plan};
use crate::reader_numbers::{
    ReaderNumbers, BYTE, BYTE_START_HIGH, BYTE_START_LOW, END_HIGH, END_LOW, FRAME_START, START, WAITING,
};
use crate::samples::{self, HIGH, LOW};
use crate::script::Command;
use Next::{Phase, Told};

/// Strobes a low bit with the next sample, if that is low.
pub(super) const READY: ReaderNumbers = ReaderNumbers { counter: 5, ..phases::LOW };

pub fn add(plan: &mut Plan) {
    add_bit_clocks(plan);
    add_timers(plan);
    for channel in Channel::BOTH {
        open_and_hear(plan, channel, &samples::short_stream(channel), &[0]);
        add_ends(plan, channel);
        // These come last, as they write into the memory.
        add_whole_bytes(plan, channel);
        add_next_bits(plan, channel);
    }
}

/// Every state of the bit clock and either sample, with low ones behind it: the first low bit is an error, and the samples
/// that it took tell where it was strobed.
fn add_bit_clocks(plan: &mut Plan) {
    for counter in 1..=8 {
        for flags in 0..8 {
            let [realigns, voted, high] = [1, 2, 4].map(|flag| flags & flag != 0);
            for samples in 0..16 {
                let clock = ReaderNumbers { samples, voted, counter, realigns, ..READY };
                put(plan, &ReaderNumbers { phase: BYTE_START_HIGH, count: 1, ..clock });
                let piece = [&[u8::from(high)][..], &[LOW; 12]].concat();
                plan.add(Command::listen(&piece), Expected::Anything);
            }
        }
    }
}

/// Whether a low bit begins a start shows 17 low bits later.
fn add_timers(plan: &mut Plan) {
    for timer in [0, 85, 86, 87, 88] {
        let told: &[u8] = if timer >= 87 { &[30] } else { &[] };
        put(plan, &ReaderNumbers { timer, ..READY });
        hear(plan, &[LOW; 1 + 8 * 17], told);
    }
}

/// The short frame lies in the memory. Where the reader says that there are more bytes, their size is wrong, or the words
/// don't fit it.
fn add_ends(plan: &mut Plan, channel: Channel) {
    let at_end = ReaderNumbers { channel, phase: END_LOW, ..READY };
    for since in [0, 631, 970, 971] {
        put(plan, &ReaderNumbers { count: 8, since, ..at_end });
        let line = line_of(1, &listed(&SHORT, channel)).replace(" 632 ", &format!(" {} ", since + 1));
        plan.add(Command::listen(&[LOW]), Expected::Line(line));
    }
    for (count, number) in [(9, 3), (10, 5), (11, 3), (261, 3), (262, 5)] {
        put(plan, &ReaderNumbers { count, ..at_end });
        hear(plan, &[LOW], &[number]);
    }
}

/// The last bit of the fifth byte, of bytes that the header doesn't ask for any more, and of the last place of all.
fn add_whole_bytes(plan: &mut Plan, channel: Channel) {
    let last_bit = ReaderNumbers { channel, phase: BYTE, number: 7, ..READY };
    // C0 as the short frame has it, and C1, whose cycle alone differs; then a wrong header checksum.
    for (value, sample, told) in [(0x60, LOW, &[][..]), (0x60, HIGH, &[]), (0x20, LOW, &[4]), (0x70, LOW, &[])] {
        let samples = if sample == HIGH { 0b1111 } else { 0 };
        put(plan, &ReaderNumbers { count: 4, value, samples, ..last_bit });
        hear(plan, &[sample], told);
        plan.add(Command::ShowReader, Expected::Anything);
    }
    for count in [0, 3, 5, 6, 7, 8, 100, 260, 261] {
        put(plan, &ReaderNumbers { count, value: 0x55, ..last_bit });
        plan.add(Command::listen(&[LOW; 9]), Expected::Anything);
    }
    plan.add(Command::ShowReader, Expected::Anything);
}

/// What a bit leads to: the number that it tells, and otherwise the phase and its numbers.
enum Next {
    Told(u8),
    Phase(u8, u8, u8),
}

/// Phase and number before, and what comes of a low bit and of a high one.
const NEXT: [(u8, u8, [Next; 2]); 10] = [
    (WAITING, 0, [Phase(WAITING, 0, 0), Phase(WAITING, 0, 0)]),
    (START, 16, [Phase(START, 17, 0), Phase(FRAME_START, 1, 0)]),
    (START, 17, [Told(30), Phase(FRAME_START, 1, 0)]),
    (FRAME_START, 2, [Phase(BYTE, 0, 0), Phase(FRAME_START, 3, 0)]),
    (FRAME_START, 3, [Phase(BYTE, 0, 0), Told(31)]),
    (BYTE_START_HIGH, 0, [Told(32), Phase(BYTE_START_LOW, 0, 0)]),
    (BYTE_START_LOW, 0, [Phase(BYTE, 0, 0), Told(33)]),
    (BYTE, 3, [Phase(BYTE, 4, 10), Phase(BYTE, 4, 11)]),
    // No frame has the 261 bytes that have come.
    (END_LOW, 0, [Told(3), Told(34)]),
    (END_HIGH, 0, [Told(35), Phase(WAITING, 0, 0)]),
];

/// Either bit in every phase. Realignment is enabled before on one channel, and on the other it is not.
fn add_next_bits(plan: &mut Plan, channel: Channel) {
    let realigns = channel == Channel::B;
    for (phase, number, next) in NEXT {
        for (high, next) in [false, true].into_iter().zip(next) {
            let (samples, timer) = if high { (15, 1) } else { (0, 0) };
            let count = if has_bytes(phase) { 261 } else { 0 };
            let before = ReaderNumbers { channel, phase, number, value: 5, count, samples, realigns, ..READY };
            // A bit of a byte enables nothing.
            let realigns = realigns || high && phase != BYTE;
            let strobed = ReaderNumbers { voted: high, counter: 6, timer, realigns, ..before };
            let (told, after) = behind_bit(&strobed, next);
            put(plan, &before);
            hear(plan, &[u8::from(high)], &told);
            show(plan, &after);
        }
    }
}

fn has_bytes(phase: u8) -> bool {
    (BYTE_START_HIGH..=END_LOW).contains(&phase)
}

fn behind_bit(strobed: &ReaderNumbers, next: Next) -> (Vec<u8>, ReaderNumbers) {
    match next {
        Told(error) => (vec![error], ReaderNumbers { phase: WAITING, count: 0, since: 0, ..*strobed }),
        Phase(phase, number, value) => {
            let since = u32::from(has_bytes(strobed.phase));
            (Vec::new(), ReaderNumbers { phase, number, value, since, ..*strobed })
        }
    }
}
