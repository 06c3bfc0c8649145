//! What closing a cycle finds, and on which sides of its bounds.

use super::choices::any;
use super::Reached;
use crate::answer::Answer;
use crate::cases::clock::{CLUSTER_LIMITS, DAMPED_OF_01, MIDPOINTS};
use crate::channel::Channel;
use crate::closing::{Closing, Controls};
use crate::correction::{sum_of_ends, Found};
use crate::settings::{self, DRIFT_DAMPING, OFFSET_LIMIT, RATE_LIMIT};
use crate::sync_list::{Sighting, PLACES};

impl Reached {
    pub(super) fn add_close(&mut self, answer: &Answer) {
        let Answer::Closed(Ok(closing)) = answer else {
            return;
        };
        self.add_flags(closing);
        self.add_term("offset", &closing.offset, closing.deviations.len(), closing.offset_term);
        self.add_term("rate", &closing.rate, closing.differences.len(), closing.rate_term);
        self.add_of_ids(closing);
        self.add_seen(closing.cycle);
        self.add_far(closing);
        self.add_closed_with_f(closing);
    }

    fn add_flags(&mut self, closing: &Closing) {
        let (flags, odd) = (closing.flags(), closing.cycle % 2 == 1);
        self.add(format!("{} IDs, odd cycle: {odd}", closing.deviations.len()));
        for (place, flag) in flags.into_iter().enumerate() {
            self.add(format!("flag {place}: {flag}, odd cycle: {odd}"));
        }
        let terms = [("offset", closing.controls.offset, flags[0]), ("rate", closing.controls.rate, flags[1])];
        for (term, control, missing) in terms {
            self.add(format!("{term} control {control}, odd cycle: {odd}, missing: {missing}"));
        }
        if flags[1] && closing.rate_term != 0 && closing.controls.rate == 0 {
            self.add("rate missing and stored rate kept".to_string());
        }
    }

    fn add_term(&mut self, term: &str, found: &Option<Found>, received: usize, reported: i64) {
        let Some(found) = found else {
            return;
        };
        let (count, limit, x) = (found.values.len(), found.limit, found.term);
        self.add(format!("{term} of {count} values, own one: {}", count > received));
        self.add_midpoint(term, found);
        self.add(format!("{term} {x} with limit {limit}, flagged: {}", found.is_limited()));
        if reported.abs() > limit {
            self.add(format!("{term} led beyond its limit, up: {}", reported > 0));
        }
        if term == "rate" {
            self.add(format!("{} damped by {}", found.undamped, found.damping));
        }
    }

    fn add_midpoint(&mut self, term: &str, found: &Found) {
        let (values, sum) = (&found.values, sum_of_ends(&found.values));
        if MIDPOINTS.iter().any(|(listed, _)| listed.iter().map(|value| i64::from(*value)).eq(values.iter().copied())) {
            self.add(format!("{term} of {values:?}"));
        }
        if sum % 2 != 0 {
            self.add(format!("{term} halved, negative: {}", sum < 0));
        }
        for ends in 0..=2 {
            if found.if_discarded(ends).is_some_and(|other| other != found.within_limit()) {
                self.add(format!("{term} of {} values differs with {ends} discarded", values.len()));
            }
        }
    }

    fn add_of_ids(&mut self, closing: &Closing) {
        for of_id in &closing.deviations {
            if let [on_a, on_b] = of_id[..] {
                self.add(format!("A to B: {:?}", on_a.cmp(&on_b)));
            }
        }
        for of_id in &closing.differences {
            let sum: i64 = of_id.iter().sum();
            self.add(format!("{} differences of an ID", of_id.len()));
            if of_id.len() == 2 && sum % 2 != 0 {
                self.add(format!("channels halved, negative: {}", sum < 0));
            }
        }
    }

    /// The channels of the only ID of an odd cycle, and an even one whose lists would give another rate.
    fn add_seen(&mut self, cycle: u8) {
        let clock = &self.held.clock;
        let [even, odd] = &clock.lists;
        let channels = |of_id: &Sighting| of_id.measurements.keys().copied().collect::<Vec<Channel>>();
        if cycle % 2 == 0 {
            let if_odd = Closing::of(clock, cycle + 1, Controls::NONE).rate_to_store();
            if if_odd.is_some_and(|rate| rate != clock.stored_rate.into()) {
                self.add("pairs in an even cycle".to_string());
            }
            return;
        }
        if let [only] = &odd.sightings[..] {
            let earlier = even.of(only.id).map(channels).unwrap_or_default();
            self.add(format!("seen on {earlier:?}, then on {:?}", channels(only)));
        }
    }
}

/// The rate's flags are clear in even cycles. As many IDs as a list has places for, and the node's own zero beside at
/// least one of them. 01 "Clock" has 1 discarded at each end of 3 to 7 values and 2 of more; each other number that would
/// leave some gives another term.
pub(super) fn required() -> Vec<String> {
    let most = PLACES + 1;
    let mut all: Vec<String> = [
        "flag <0..3>: false, odd cycle: <false|true>",
        "flag <0|2>: true, odd cycle: <false|true>",
        "flag <1|3>: true, odd cycle: true",
        "rate missing and stored rate kept",
        "<offset|rate|channels> halved, negative: <false|true>",
        "<offset|rate> of <3..7> values differs with 0 discarded",
        "<offset|rate> of <5..7> values differs with 2 discarded",
        "<offset|rate> led beyond its limit, up: <false|true>",
        "offset control <-1..1>, odd cycle: <false|true>, missing: <false|true>",
        "rate control <-1..1>, odd cycle: <false|true>, missing: false",
        "rate control <-1..1>, odd cycle: true, missing: true",
        "A to B: <Less|Equal|Greater>",
        "<1|2> differences of an ID",
        "seen on <[]|[A]|[B]|[A, B]>, then on <[A]|[B]|[A, B]>",
        "pairs in an even cycle",
    ]
    .map(str::to_string)
    .into();
    all.extend([
        format!("<offset|rate> of <8..{most}> values differs with <0|1> discarded"),
        format!("<offset|rate> of <1..{PLACES}> values, own one: false"),
        format!("<offset|rate> of <2..{most}> values, own one: true"),
        format!("<0..{PLACES}> IDs, odd cycle: <false|true>"),
    ]);
    all.extend(MIDPOINTS.map(|(values, _)| format!("<offset|rate> of {values:?}")));
    all.extend(DAMPED_OF_01.map(|(x, d)| format!("{x} damped by {d}")));
    all.extend(ends_of_bounds());
    all
}

/// At a limit and within it a term isn't flagged, one beyond it is: limits 0, 1, that of a cluster and the highest. The
/// same places for the damping.
fn ends_of_bounds() -> Vec<String> {
    let [of_offset, of_rate] = CLUSTER_LIMITS;
    let mut all = Vec::new();
    for (term, field, of_cluster) in [("offset", OFFSET_LIMIT, of_offset), ("rate", RATE_LIMIT, of_rate)] {
        let (_, highest) = settings::ends(field);
        all.push(format!("{term} 0 with limit {highest}, flagged: false"));
        for limit in [0, 1, of_cluster, highest].map(i64::from) {
            let (within, beyond) = (any([limit, -limit]), any([limit + 1, -limit - 1]));
            all.push(format!("{term} <{within}> with limit {limit}, flagged: false"));
            all.push(format!("{term} <{beyond}> with limit {limit}, flagged: true"));
        }
    }
    let (_, highest) = settings::ends(DRIFT_DAMPING);
    all.extend([0, 1, i64::from(highest)].map(|d| format!("<0|{}> damped by {d}", any([-d - 1, -d, d, d + 1]))));
    all
}
