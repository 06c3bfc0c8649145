//! 02 C-12: what must be reached of a counter that runs over two cycles. As in its cases, no number follows from the limit.

use std::collections::BTreeMap;

use super::Reached;
use crate::answer::Answer;
use crate::channel::Channel;
use crate::clock::{list_of, ClockState, Times};
use crate::clock_faults::LONGEST_CYCLE;
use crate::closing::Closing;
use crate::correction::{midpoint, Found};
use crate::sync_list::{Measurement, Sighting};

/// The ends of the range of deviations, and of the differences that can be put and measured.
const FAR: [i64; 6] = [-2_560_510, 2_560_000, -5_120_510, 5_120_510, -5_120_000, 5_120_000];

impl Reached {
    pub(super) fn add_times(&mut self, times: Times, answer: &Answer) {
        let Some(list) = self.held.clock.open.map(list_of) else {
            return;
        };
        let Times { observed, action_point } = times;
        self.add_of('M', format!("times {observed} and {action_point} in list {list}: {}", answer.number()));
        if let Answer::Measured(Ok(deviation)) = answer {
            self.add_second_cycle([observed, action_point].map(|time| time > LONGEST_CYCLE), list, *deviation);
        }
    }

    /// Which of observed time and action point are in the counter's second cycle: one of them, or both for an ID that was
    /// measured in the even cycle before.
    fn add_second_cycle(&mut self, second: [bool; 2], list: usize, deviation: i32) {
        let (clock, status) = (&self.held.clock, &self.held.status);
        let channel = status.channel;
        let earlier = status.kept.and_then(|frame| clock.lists[0].of(frame.id)?.measurements.get(&channel));
        let text = match (second, earlier) {
            ([true, true], Some(even)) if list == 1 => {
                format!("ran on from {} to {deviation} on {channel:?}", even.deviation)
            }
            ([false, true], _) => format!("across the first cycle's end by {deviation} in list {list} on {channel:?}"),
            ([true, false], _) => {
                format!("back across the first cycle's end by {deviation} in list {list} on {channel:?}")
            }
            _ => return,
        };
        self.add(text);
    }

    /// What was listed and found, in a state that was loaded or put.
    pub(super) fn add_far(&mut self, closing: &Closing) {
        let (origin, list) = (self.clock_from, list_of(closing.cycle));
        let mut all = of_list(&self.held.clock, list);
        let terms = [("offset", &closing.offset, &closing.deviations), ("rate", &closing.rate, &closing.differences)];
        for (term, found, received) in terms {
            let far = found.iter().flat_map(|found| of_term(found, received.len()));
            all.extend(far.map(|of_value| format!("{term} in list {list} of {of_value}")));
        }
        all.into_iter().for_each(|text| self.add(format!("{origin:?}: {text}")));
    }
}

/// The deviations of the closed cycle, and how far those of an odd one are from the even one's.
fn of_list(clock: &ClockState, list: usize) -> Vec<String> {
    let mut all = Vec::new();
    for of_id in &clock.lists[list].sightings {
        let on = of_id.measurements.iter();
        all.extend(on.map(|(channel, measured)| format!("{} in list {list} on {channel:?}", measured.deviation)));
        let earlier = clock.lists[0].of(of_id.id).filter(|_| list == 1);
        all.extend(earlier.map(|even| format!("cycles apart by {:?}", apart(even, of_id))));
    }
    all
}

fn apart(even: &Sighting, odd: &Sighting) -> BTreeMap<Channel, i32> {
    let on = |(channel, later): (&Channel, &Measurement)| {
        Some((*channel, later.deviation - even.measurements.get(channel)?.deviation))
    };
    odd.measurements.iter().filter_map(on).collect()
}

/// The values of a term that are as far off as can be: within its limit it shows whether they were kept whole.
fn of_term(found: &Found, received: usize) -> Vec<String> {
    let (own, flagged) = (found.values.len() > received, found.is_limited());
    let (stored, damping) = (found.undamped - midpoint(&found.values), found.damping);
    let far = found.values.iter().filter(|value| FAR.contains(value));
    far.map(|value| format!("{value}, {stored} stored, damped by {damping}, own one: {own}, flagged: {flagged}"))
        .collect()
}

/// Both numbers on both sides of the limits before and after C-12, deviations just beyond both ranges, and a counter that
/// runs on or stands between two cycles.
pub(super) fn required() -> Vec<String> {
    let mut all: Vec<String> = [
        "times <1280000|1280001|2559999|2560000> and 0 in list <0|1>: 0",
        "times <1280000|1280001|2560000> and 1300000 in list <0|1>: 0",
        "times 0 and <1280000|1280001|2559999|2560000> in list <0|1>: 0",
        "times 1300000 and <1280000|1280001|2560000> in list <0|1>: 0",
        "times 2560001 and <0|1300000|2560000> in list <0|1>: 14",
        "times <0|1300000|2560000> and 2560001 in list <0|1>: 14",
        "C sound with list <0 has -1280511 on A|0 has 1280001 on A|1 has -1280511 on B|1 has 1280001 on B>",
        "<O|M|C> unsound by list <0 has -2560511 on A|0 has 2560001 on A|1 has -2560511 on B|1 has 2560001 on B>",
        "ran on from <16 to 21 on A|14 to 22 on B>",
        "across the first cycle's end by <-116 in list 0|-98 in list 1> on <A|B>",
        "back across the first cycle's end by <25 in list 0|22 in list 1> on <A|B>",
    ]
    .map(str::to_string)
    .into();
    all.extend(measured().map(|far| format!("Opened: {far}")));
    all.extend(put().map(|far| format!("Put: {far}")));
    all
}

/// From a load on, where one sheet gives differences up to 5,120,000.
fn measured() -> [&'static str; 6] {
    [
        "<-2560510|2560000> in list <0|1> on <A|B>",
        "cycles apart by {<A|B>: <-5120000|5120000>}",
        "cycles apart by {A: <5120000, B: 5120000|5120000, B: -5119990|-5120000, B: -5120000|-5120000, B: 5119989>}",
        "rate in list 1 of 5120000, 0 stored, damped by 0, own one: false, flagged: <false|true>",
        "rate in list 1 of -5120000, 8 stored, damped by 0, own one: false, flagged: false",
        "rate in list 1 of <-5120000|5120000>, <0|5> stored, damped by 3, own one: true, flagged: false",
    ]
}

fn put() -> [&'static str; 8] {
    [
        "cycles apart by {<A|B>: <-5120510|5120510>}",
        "cycles apart by {A: <5120510, B: 5120510|5120510, B: -5120500|-5120510, B: -5120510|-5120510, B: 5120499>}",
        "offset in list 0 of <-2560510|2560000>, 0 stored, damped by 0, own one: false, flagged: <false|true>",
        "offset in list 1 of <-2560510|2560000>, 0 stored, damped by 0, own one: <false|true>, flagged: false",
        "rate in list 1 of <-5120510|5120510>, 0 stored, damped by 0, own one: <false|true>, flagged: false",
        "rate in list 1 of <-5120510|5120510>, 0 stored, damped by 0, own one: false, flagged: true",
        "rate in list 1 of <-5120510, -30|5120510, 30> stored, damped by 20, own one: false, flagged: false",
        "rate in list 1 of <-5120510, -4000|5120510, 4000> stored, damped by 20, own one: false, flagged: true",
    ]
}
