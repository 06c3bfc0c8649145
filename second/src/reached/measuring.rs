//! Measurements: whose settings count, which statuses have no sync frame, and lists at their limit.

use super::Reached;
use crate::answer::Answer;
use crate::cases::clock::{CORRECTIONS, TIMES_OF_01};
use crate::clock::{delay_on, deviation, list_of, Times};
use crate::clock_faults::Unfit;
use crate::clock_numbers::RowNumbers;
use crate::frame::Fields;
use crate::refusal::Refusal;
use crate::settings::{self, DECODING_CORRECTION, STATIC_SLOTS, SYNC_ID_LIMIT};

impl Reached {
    pub(super) fn add_measure(&mut self, times: Times, answer: &Answer) {
        self.add_times(times, answer);
        self.add_measure_of_f(answer);
        let limit = self.held.clock.settings.field(SYNC_ID_LIMIT);
        match (answer, self.held.status.kept) {
            (Answer::Measured(Ok(deviation)), Some(frame)) => {
                self.add_measured(times, *deviation);
                self.add_listed_id(&frame, limit);
            }
            (Answer::Measured(Err(Refusal::ListFull)), Some(frame)) => {
                self.add_of('M', format!("one more than {limit} in list {}", list_of(frame.cycle)));
            }
            (Answer::Measured(Err(Refusal::NoSyncFrame)), kept) => self.add_unfit(kept.is_some()),
            _ => (),
        }
    }

    /// The slot is static by the clock state's settings.
    fn add_unfit(&mut self, kept: bool) {
        let (clock, status) = (&self.held.clock, &self.held.status);
        let unfit = match status.is_static() {
            _ if !kept => Unfit::NoValidFrame,
            true => Unfit::NotSync,
            false => Unfit::NotStatic,
        };
        if u32::from(status.slot) <= clock.settings.field(STATIC_SLOTS) {
            self.add_of('M', format!("no sync frame: {unfit:?}"));
        }
    }

    fn add_measured(&mut self, times: Times, found: i32) {
        let (settings, status) = (self.held.clock.settings, &self.held.status);
        let (channel, by_status) = (status.channel, status.settings);
        if u32::from(status.slot) > settings.field(STATIC_SLOTS) {
            self.add("static by the status alone".to_string());
        }
        let others = [(settings, channel.other()), (by_status, channel), (by_status, channel.other())];
        if others.iter().all(|(settings, channel)| deviation(settings, *channel, times) != found.into()) {
            self.add(format!("delays by the clock state on {channel:?} alone"));
        }
        if times == TIMES_OF_01 {
            let [correction, delay] = [DECODING_CORRECTION, delay_on(channel)].map(|field| settings.field(field));
            self.add(format!("01's times on {channel:?} with {correction} and {delay}: {found}"));
        }
    }

    fn add_listed_id(&mut self, frame: &Fields, limit: u32) {
        let (clock, place) = (&self.held.clock, list_of(frame.cycle));
        let [even, count] = [0, place].map(|place| u32::from(clock.lists[place].count()));
        let sends_sync = clock.settings.sends_sync;
        if clock.lists[place].of(frame.id).is_some() {
            return self.add_of('M', format!("listed ID taken with {count} of {limit} in list {place}"));
        }
        let row = self.put_clock.map(|put| put.lists[place].rows[count as usize]);
        if row.is_some_and(|row| row != RowNumbers::default()) {
            self.add_of('M', format!("row taken over in list {place}"));
        }
        if count + 1 == limit {
            self.add_of('M', format!("last of {limit} taken in list {place}"));
            self.add(format!("last taken, sends sync: {sends_sync}, even list full: {}", even == limit));
        }
    }
}

pub(super) fn required() -> Vec<String> {
    let (lowest, highest) = settings::ends(SYNC_ID_LIMIT);
    let mut all = vec![
        "no sync frame: <NoValidFrame|NotSync|NotStatic>".to_string(),
        "static by the status alone".to_string(),
        "delays by the clock state on <A|B> alone".to_string(),
        "row taken over in list <0|1>".to_string(),
        format!("last of <{lowest}..{highest}> taken in list <0|1>"),
        format!("one more than <{lowest}..{highest}> in list <0|1>"),
        "last taken, sends sync: true, even list full: false".to_string(),
        "last taken, sends sync: false, even list full: true".to_string(),
    ];
    all.extend((lowest..=highest).map(|limit| format!("listed ID taken with {limit} of {limit} in list <0|1>")));
    for (correction, delay, deviation) in CORRECTIONS {
        all.push(format!("01's times on <A|B> with {correction} and {delay}: {deviation}"));
    }
    all
}
