//! Readers at both sides of each border of soundness: an empty piece is taken or refused, and changes nothing.

use super::{put, show};
use crate::channel::Channel;
use crate::plan::{Expected, Plan};
use crate::reader_numbers::{
    ReaderNumbers, BYTE, BYTE_START_HIGH, BYTE_START_LOW, END_HIGH, END_LOW, FRAME_START, START, WAITING,
};
use crate::script::Command;

/// Waiting, with four samples seen.
const VOTING: ReaderNumbers = ReaderNumbers {
    channel: Channel::A,
    samples: 9,
    seen: 4,
    voted: true,
    counter: 3,
    realigns: true,
    timer: 20,
    phase: WAITING,
    number: 0,
    value: 0,
    count: 0,
    since: 0,
};

/// Just opened.
const FRESH: ReaderNumbers =
    ReaderNumbers { samples: 0, seen: 0, voted: false, counter: 1, realigns: false, timer: 0, ..VOTING };

pub fn add(plan: &mut Plan) {
    let mut readers = Vec::new();
    readers.extend(counts());
    readers.extend((0..4).flat_map(few_samples));
    readers.extend(numbers());
    readers.extend(bytes());
    readers.extend([BYTE_START_HIGH, BYTE_START_LOW, BYTE, END_LOW].into_iter().flat_map(times));
    for (place, (sound, numbers)) in readers.into_iter().enumerate() {
        let numbers = ReaderNumbers { channel: Channel::BOTH[place % 2], ..numbers };
        let line = if sound { "heard 0 0 0 0" } else { "heard 23 0 0 0" };
        put(plan, &numbers);
        plan.add(Command::listen(&[]), Expected::line(line));
        show(plan, &numbers);
    }
}

/// Whether it is sound, and the reader.
type Case = (bool, ReaderNumbers);

/// Samples, counter and timer, each out of its range and at its ends.
fn counts() -> Vec<Case> {
    let mut all: Vec<Case> = [5, 255].map(|seen| (false, ReaderNumbers { seen, ..VOTING })).into();
    let wrong = [0, 9, 255].map(|counter| (false, ReaderNumbers { counter, ..VOTING }));
    let right = (1..=8).map(|counter| (true, ReaderNumbers { counter, ..VOTING }));
    all.extend(wrong.into_iter().chain(right));
    for (sound, timer) in [(false, 89), (false, 255), (true, 88), (true, 87), (true, 0)] {
        all.push((sound, ReaderNumbers { timer, ..VOTING }));
    }
    all
}

/// What can't be there while fewer than four samples have come, one thing at a time.
fn few_samples(seen: u8) -> Vec<Case> {
    let come = (1 << seen) - 1;
    let fresh = ReaderNumbers { samples: come, seen, ..FRESH };
    let mut all = vec![
        (true, fresh),
        (true, ReaderNumbers { samples: 0, ..fresh }),
        (false, ReaderNumbers { voted: true, ..fresh }),
        (false, ReaderNumbers { realigns: true, ..fresh }),
        (false, ReaderNumbers { samples: 15, ..fresh }),
    ];
    all.extend((seen..4).map(|bit| (false, ReaderNumbers { samples: come | 1 << bit, ..fresh })));
    all.extend([2, 8].map(|counter| (false, ReaderNumbers { counter, ..fresh })));
    all.extend([1, 88].map(|timer| (false, ReaderNumbers { timer, ..fresh })));
    // Each of these phases would be sound with four samples.
    for phase in START..=END_HIGH {
        let count = if (BYTE_START_HIGH..=END_LOW).contains(&phase) { 8 } else { 0 };
        all.push((false, ReaderNumbers { phase, number: 1, count, ..fresh }));
    }
    all
}

/// How many bits have come in the phases that count them, and the number that they make.
fn numbers() -> Vec<Case> {
    let mut all = Vec::new();
    for (phase, most) in [(START, 17), (FRAME_START, 3)] {
        let at = |number| ReaderNumbers { phase, number, ..VOTING };
        all.extend([0, most + 1, 255].map(|number| (false, at(number))));
        all.extend((1..=most).map(|number| (true, at(number))));
    }
    let at = |number, value| ReaderNumbers { phase: BYTE, number, value, ..VOTING };
    all.extend([8, 255].map(|number| (false, at(number, 0))));
    for number in 0..8 {
        let first: u8 = 1 << number;
        all.extend([(true, at(number, 0)), (true, at(number, first - 1))]);
        all.extend([(false, at(number, first)), (false, at(number, 255))]);
    }
    all
}

/// How many bytes have come.
fn bytes() -> Vec<Case> {
    let mut all = Vec::new();
    for (phase, right, wrong) in [
        (BYTE, [0, 261], &[262, 263, u16::MAX][..]),
        (BYTE_START_HIGH, [1, 261], &[0, 262, u16::MAX]),
        (BYTE_START_LOW, [1, 261], &[0, 262, u16::MAX]),
        (END_LOW, [8, 262], &[0, 7, 263, u16::MAX]),
    ] {
        all.extend(right.map(|count| (true, ReaderNumbers { phase, count, ..VOTING })));
        all.extend(wrong.iter().map(|count| (false, ReaderNumbers { phase, count: *count, ..VOTING })));
    }
    for phase in [WAITING, START, FRAME_START, END_HIGH] {
        let without = ReaderNumbers { phase, number: 1, ..VOTING };
        all.push((true, without));
        all.extend([1, u16::MAX].map(|count| (false, ReaderNumbers { count, ..without })));
        all.extend([1, u32::MAX].map(|since| (false, ReaderNumbers { since, ..without })));
    }
    all
}

/// The samples since the reference point: at most twelve for each bit, and those since the last strobe.
fn times(phase: u8) -> Vec<Case> {
    let mut all = Vec::new();
    for (counter, behind_strobe) in [(6, 0), (7, 1), (8, 2), (1, 3), (2, 4), (3, 5), (4, 6), (5, 7)] {
        for (realigns, behind_edge) in [(true, 0), (false, 4)] {
            let number = counter - 1;
            let count = if realigns { 8 } else { 261 };
            let bits = match phase {
                BYTE => 10 * u32::from(count) + 2 + u32::from(number),
                BYTE_START_LOW => 10 * u32::from(count) + 1,
                _ => 10 * u32::from(count),
            };
            let since = 12 * bits + behind_strobe + behind_edge;
            let most = ReaderNumbers { phase, counter, realigns, number, count, since, ..VOTING };
            all.extend([(true, most), (false, ReaderNumbers { since: since + 1, ..most })]);
        }
    }
    all.push((false, ReaderNumbers { phase, count: 8, since: u32::MAX, ..VOTING }));
    all
}
