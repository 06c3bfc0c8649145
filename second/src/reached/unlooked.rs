//! What a script says of a state but nobody looks at: unnamed bits, and numbers behind a switch or a count.

use super::choices::any;
use super::Reached;
use crate::cases::clock::COUNTS;
use crate::channel::Channel;
use crate::clock_numbers::{ClockNumbers, RowNumbers};
use crate::faults::WRONG_CYCLES;
use crate::sync_list::DEVIATIONS;

impl Reached {
    /// An event was accepted on the status that was put.
    pub(super) fn add_unlooked_of_status(&mut self) {
        let Some(numbers) = self.put_status else {
            return;
        };
        let header = numbers.header;
        let mut all = bits_from(6, numbers.marks, "marks");
        if numbers.kept {
            all.extend(bits_from(5, header.flags, "flags"));
        } else {
            let [flags, words, cycle] = [header.flags, header.words, header.cycle].map(u16::from);
            let behind = [flags, header.id, words, header.checksum, cycle];
            let others: Vec<usize> = (0..behind.len()).filter(|place| behind[*place] != 0).collect();
            all.push(format!("unlooked places of a frame {others:?}"));
        }
        all.into_iter().for_each(|unlooked| self.add_of('A', unlooked));
    }

    pub(super) fn add_unlooked_of_clock(&mut self, numbers: &ClockNumbers) {
        let mut all = Vec::new();
        for (name, there, cycle) in [("open", numbers.open, numbers.cycle), ("last", numbers.closed, numbers.last)] {
            all.extend((!there).then(|| format!("unlooked {name} cycle {cycle}")));
        }
        for (place, list) in numbers.lists.iter().enumerate() {
            let (count, behind) = (list.count, &list.rows[list.listed().len()..]);
            let something = behind.is_empty() || behind.iter().any(|row| *row != RowNumbers::default());
            all.extend(something.then(|| format!("unlooked rows behind {count} of list {place}")));
        }
        if numbers.state().is_sound() {
            all.extend(numbers.lists.iter().flat_map(|list| list.listed()).flat_map(of_row));
        }
        all.into_iter().for_each(|unlooked| self.add_of('K', unlooked));
    }
}

/// The bits that are set, from this one on.
fn bits_from(first: u8, number: u8, name: &str) -> Vec<String> {
    (first..8).filter(|bit| number >> bit & 1 == 1).map(|bit| format!("unlooked bit {bit} of {name}")).collect()
}

fn of_row(row: &RowNumbers) -> Vec<String> {
    let on = |channel: Channel| row.deviations[usize::from(channel.number())];
    let strange = |channel| !row.is_seen_on(channel) && !DEVIATIONS.contains(&on(channel));
    let mut all = bits_from(2, row.seen, "seen");
    let unseen = Channel::BOTH.into_iter().filter(|channel| strange(*channel));
    all.extend(unseen.map(|channel| format!("unlooked deviation on {channel:?}")));
    all
}

pub(super) fn required() -> Vec<String> {
    vec![
        "unlooked bit <6|7> of marks".to_string(),
        "unlooked bit <5..7> of flags".to_string(),
        "unlooked bit <2..7> of seen".to_string(),
        "unlooked places of a frame [<0..4>]".to_string(),
        "unlooked deviation on <A|B>".to_string(),
        format!("unlooked <open|last> cycle <{}>", any(WRONG_CYCLES)),
        format!("unlooked rows behind <{}> of list <0|1>", any(COUNTS)),
    ]
}
