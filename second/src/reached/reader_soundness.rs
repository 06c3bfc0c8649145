//! The clauses of a sound reader, part by part, told from its numbers.

use super::soundness::Parts;
use crate::frame::{LARGEST_FRAME, SMALLEST_FRAME};
use crate::reader_numbers::{ReaderNumbers, BYTE, BYTE_START_HIGH, BYTE_START_LOW, END_LOW, FRAME_START, START};

/// Samples since a strobe by where the counter stands, from 1 to 8.
const BEHIND_STROBE: [i64; 8] = [3, 4, 5, 6, 7, 0, 1, 2];

pub(super) fn of_reader(numbers: &ReaderNumbers) -> Parts {
    let ReaderNumbers { seen, counter, timer, .. } = *numbers;
    let counts = (1..=8).contains(&counter);
    let mut parts = vec![
        (format!("seen {seen}"), seen <= 4),
        (format!("counter {counter}"), counts),
        (format!("timer {timer}"), timer <= 88),
    ];
    if seen < 4 {
        parts.extend(of_few_samples(numbers));
    }
    parts.extend(of_phase(numbers));
    if counts && has_bytes(numbers.phase) && parts.iter().all(|(_, right)| *right) {
        parts.push(of_since(numbers));
    }
    parts
}

fn has_bytes(phase: u8) -> bool {
    (BYTE_START_HIGH..=END_LOW).contains(&phase)
}

/// What isn't there yet while fewer than four samples have come; a counter out of range is wrong anyway.
fn of_few_samples(numbers: &ReaderNumbers) -> Parts {
    let ReaderNumbers { samples, seen, voted, counter, realigns, timer, phase, .. } = *numbers;
    let come = (1 << seen) - 1;
    let mut parts = vec![
        (format!("{seen} seen, others {}", samples & !come), samples & !come == 0),
        (format!("{seen} seen, voted {voted}"), !voted),
        (format!("{seen} seen, realigns {realigns}"), !realigns),
        (format!("{seen} seen, phase {phase}"), phase == 0),
    ];
    if (1..=8).contains(&counter) {
        parts.push((format!("{seen} seen, counter {counter}"), counter == 1));
    }
    if timer <= 88 {
        parts.push((format!("{seen} seen, timer {timer}"), timer == 0));
    }
    parts
}

fn of_phase(numbers: &ReaderNumbers) -> Parts {
    let ReaderNumbers { phase, number, count, since, .. } = *numbers;
    let bytes = usize::from(count);
    match phase {
        BYTE => of_byte(numbers),
        BYTE_START_HIGH | BYTE_START_LOW => {
            vec![(format!("phase {phase} with {count} bytes"), (1..LARGEST_FRAME).contains(&bytes))]
        }
        END_LOW => {
            let right = (SMALLEST_FRAME..=LARGEST_FRAME).contains(&bytes);
            vec![(format!("phase {phase} with {count} bytes"), right)]
        }
        _ => {
            let mut parts = vec![
                (format!("phase {phase} with {count} bytes"), count == 0),
                (format!("phase {phase} with {since} samples"), since == 0),
            ];
            let most = [(START, 17), (FRAME_START, 3)].into_iter().find(|(of_phase, _)| *of_phase == phase);
            parts.extend(most.map(|(_, most)| (format!("phase {phase} at {number}"), (1..=most).contains(&number))));
            parts
        }
    }
}

fn of_byte(numbers: &ReaderNumbers) -> Parts {
    let ReaderNumbers { number, value, count, .. } = *numbers;
    let mut parts = vec![
        (format!("phase 5 at {number}"), number <= 7),
        (format!("phase 5 with {count} bytes"), usize::from(count) < LARGEST_FRAME),
    ];
    if number <= 7 {
        parts.push((format!("{number} bits make {value}"), u16::from(value) < 1 << number));
    }
    parts
}

/// How many samples more there might be.
fn of_since(numbers: &ReaderNumbers) -> (String, bool) {
    let ReaderNumbers { counter, realigns, phase, number, count, since, .. } = *numbers;
    let in_byte = if phase == BYTE { 2 + i64::from(number) } else { i64::from(phase == BYTE_START_LOW) };
    let bits = 10 * i64::from(count) + in_byte;
    let most = 12 * bits + BEHIND_STROBE[usize::from(counter) - 1] + if realigns { 0 } else { 4 };
    let left = most - i64::from(since);
    (format!("phase {phase}, counter {counter}, realigns {realigns}, {left} samples left"), left >= 0)
}

/// Both sides of every border.
pub(super) fn required() -> Vec<String> {
    let largest = LARGEST_FRAME;
    let parts = [
        "unsound by seen <5|255>".to_string(),
        "sound with seen <0..4>".to_string(),
        "unsound by counter <9|255>".to_string(),
        "sound with counter <1..8>".to_string(),
        "unsound by timer <89|255>".to_string(),
        "sound with timer <0|87|88>".to_string(),
        "unsound by 0 seen, others <1|2|4|8|15>".to_string(),
        "unsound by 1 seen, others <2|4|8>".to_string(),
        "unsound by 2 seen, others <4|8>".to_string(),
        "unsound by 3 seen, others 8".to_string(),
        "unsound by <0..3> seen, <voted|realigns> true".to_string(),
        "unsound by <0..3> seen, counter <2|8>".to_string(),
        "unsound by <0..3> seen, timer <1|88>".to_string(),
        "unsound by <0..3> seen, phase <1..7>".to_string(),
        "sound with <0..3> seen, others 0".to_string(),
        "unsound by phase 1 at <0|18|255>".to_string(),
        "sound with phase 1 at <1..17>".to_string(),
        "unsound by phase 2 at <0|4|255>".to_string(),
        "sound with phase 2 at <1..3>".to_string(),
        "unsound by phase 5 at <8|255>".to_string(),
        "sound with phase 5 at <0..7>".to_string(),
        "sound with <0 bits make 0|1 bits make 1|2 bits make 3|3 bits make 7|4 bits make 15>".to_string(),
        "sound with <5 bits make 31|6 bits make 63|7 bits make 127>".to_string(),
        format!("unsound by phase 5 with <{largest}|65535> bytes"),
        format!("sound with phase 5 with <0|{}> bytes", largest - 1),
        format!("unsound by phase <3|4> with <0|{largest}|65535> bytes"),
        format!("sound with phase <3|4> with <1|{}> bytes", largest - 1),
        format!("unsound by phase 6 with <0|7|{}|65535> bytes", largest + 1),
        format!("sound with phase 6 with <8|{largest}> bytes"),
        "unsound by phase <0|1|2|7> with <1|65535> bytes".to_string(),
        "unsound by phase <0|1|2|7> with <1|4294967295> samples".to_string(),
        "unsound by phase <3..6>, counter <1..8>, realigns <false|true>, -1 samples left".to_string(),
        "sound with phase <3..6>, counter <1..8>, realigns <false|true>, 0 samples left".to_string(),
    ];
    parts.into_iter().chain(values()).map(|part| format!("Y {part}")).collect()
}

/// The first number that so many bits don't make, and the last.
fn values() -> impl Iterator<Item = String> {
    (0..8).map(|bits| format!("unsound by {bits} bits make <{}|255>", 1 << bits))
}
