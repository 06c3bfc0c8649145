//! The causes that must stand alone and together, entry by entry: the first in the entry's order is the answer.

use crate::faults::selections;
use crate::refusal::{
    Refusal, CLOSE_CYCLE_ORDER, ENCODE_ORDER, LISTEN_ORDER, MEASURE_ORDER, OPEN_CYCLE_ORDER, OPEN_SLOT_ORDER,
    READ_ORDER, WRITE_ORDER,
};

/// By the letter of the entry.
const ORDERS: [(char, &[Refusal]); 15] = [
    ('F', &[Refusal::Channel]),
    ('R', &READ_ORDER),
    ('W', &WRITE_ORDER),
    ('P', &READ_ORDER),
    ('E', &ENCODE_ORDER),
    ('S', &OPEN_SLOT_ORDER),
    ('A', &[Refusal::NotSound]),
    ('B', &[Refusal::NotSound]),
    ('X', &[Refusal::NotSound]),
    ('L', &[Refusal::Setting]),
    ('O', &OPEN_CYCLE_ORDER),
    ('M', &MEASURE_ORDER),
    ('C', &CLOSE_CYCLE_ORDER),
    ('H', &[Refusal::Channel]),
    ('Y', &LISTEN_ORDER),
];

/// Letter and number of every answer but that of a showing.
pub(super) fn answers() -> Vec<(char, u8)> {
    let mut all = vec![('T', 0), ('K', 0), ('V', 0)];
    for (letter, order) in ORDERS {
        all.push((letter, 0));
        all.extend(order.iter().map(|refusal| (letter, refusal.number())));
    }
    all
}

/// All causes that stand together, and each one beside the first.
pub(super) fn texts(letter: char, causes: &[Refusal]) -> Vec<String> {
    let beside =
        causes.iter().skip(1).map(|later| format!("{letter} with a cause for {:?} before {later:?}", causes[0]));
    beside.chain([format!("{letter} with causes for {causes:?}")]).collect()
}

/// Every set of causes that can stand together, none and one alone among them. What makes a state unsound may be a cause
/// for more, so that beside it each other one is enough.
pub(super) fn required() -> Vec<String> {
    let mut all = Vec::new();
    for (letter, order) in ORDERS {
        let sets = selections(order).into_iter().filter(|causes| can_stand_together(letter, causes));
        all.extend(sets.map(|causes| format!("{letter} with causes for {causes:?}")));
        if let [Refusal::NotSound, later @ ..] = order {
            all.extend(later.iter().map(|later| format!("{letter} with a cause for NotSound before {later:?}")));
        }
    }
    all
}

fn can_stand_together(letter: char, causes: &[Refusal]) -> bool {
    let has = |cause| causes.contains(&cause);
    match letter {
        // Fewer than 8 bytes have no whole header and no trailer, so that besides 2 only their size can be a cause, and
        // what has nothing to do with them.
        'R' | 'P' | 'E' if has(Refusal::TooFewBytes) => {
            causes.iter().all(|cause| *cause <= Refusal::Size || *cause > Refusal::FrameChecksum)
        }
        // No number of words makes an odd size or one above the highest.
        'R' | 'P' | 'E' => has(Refusal::WordsAgainstSize) || !has(Refusal::Size),
        // The memory that is lent has nothing to do with the reader.
        'Y' => true,
        _ if has(Refusal::NotSound) => causes.len() == 1 && "ABX".contains(letter),
        // An ID that was measured already is listed, so that there is a place for it. Where no cycle is open, no frame's
        // cycle is the open one.
        'M' if has(Refusal::MeasuredAlready) && has(Refusal::ListFull) => false,
        'M' => has(Refusal::OtherCycle) || !has(Refusal::NoCycleOpen),
        _ => true,
    }
}
