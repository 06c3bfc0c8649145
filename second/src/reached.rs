//! Counts what a script reached, as commands, answers and showings tell it, and names what it should have reached.
//!
//! What is reached is told by a text, and what is demanded by one that may have choices. A text that is demanded otherwise
//! than it is counted is never reached.

mod bench;
mod both_checksums;
mod causes;
mod choices;
mod closing;
mod cycles;
mod damage;
mod ends;
mod frames;
mod frames_alone;
mod given;
mod measuring;
mod null_frames;
mod reader;
mod reader_soundness;
mod second_frames;
mod sheet_marks;
mod slots;
mod soundness;
mod stays;
mod streams;
mod two_cycles;
mod unlooked;

use std::collections::BTreeMap;
use std::mem;

use crate::answer::{Answer, Held};
use crate::clock_numbers::ClockNumbers;
use crate::clock_scene::Last;
use crate::history::Sort;
use crate::plan::Plan;
use crate::reader_numbers::ReaderNumbers;
use crate::replay::Outcome;
use crate::script::{Cause, Command, OnChannel};
use crate::status_numbers::StatusNumbers;
use both_checksums::Arrivals;
use reader::Behind;
use second_frames::Frames;
use sheet_marks::Sheets;
use stays::{Origin, Subject};

#[derive(Default)]
pub struct Reached {
    counts: BTreeMap<String, usize>,
    /// What was reached though 01 and 02 leave no way to it.
    pub impossible: Vec<String>,
    /// Letters of entries and numbers of answers, with how often they were given.
    answers: BTreeMap<(char, u8), usize>,
    /// How often small scripts ended by each cause, and by none.
    ends: BTreeMap<Option<Cause>, usize>,
    /// The states as the next command finds them.
    held: Held,
    /// For each subject what counts as soon as its state is shown, and not if another command changes it before.
    unshown: [Vec<String>; 3],
    /// The last frame that was read, and the last one that was written.
    read: Option<OnChannel>,
    written: Option<Vec<u8>>,
    status_from: Origin,
    clock_from: Origin,
    reader_from: Origin,
    /// What happened since the slot was opened.
    history: Vec<Sort>,
    frames: Frames,
    arrivals: Arrivals,
    /// The numbers from which the states that are held were made.
    put_status: Option<StatusNumbers>,
    put_clock: Option<ClockNumbers>,
    put_reader: Option<ReaderNumbers>,
    /// What the last closed cycle was when an odd cycle was opened, until another one is.
    odd_opened: Option<Last>,
    /// The statuses with reason (f) that were measured in the cycle that was opened last.
    measured_with_f: Vec<String>,
    sheets: Sheets,
    behind: Behind,
}

impl Reached {
    pub fn count(plan: &Plan, outcomes: &[Outcome]) -> Reached {
        let mut reached = Reached::default();
        outcomes.iter().for_each(|outcome| reached.add_outcome(outcome));
        plan.entries.iter().for_each(|entry| reached.add_damage(entry));
        reached
    }

    pub fn missing(&self) -> Vec<String> {
        self.missing_of(required())
    }

    fn missing_of(&self, required: Vec<String>) -> Vec<String> {
        let demanded = required.into_iter().flat_map(|text| choices::expand(&text));
        demanded.filter(|reach| !self.counts.contains_key(reach)).collect()
    }

    /// How often each entry gave each number, one line per entry, and how the small scripts ended. What readers told while
    /// they listened stands behind `y`.
    pub fn summary(&self) -> String {
        let mut lines: Vec<String> = "FRWPESABXTLOMCKDHYyVZ".chars().map(|letter| self.summary_of(letter)).collect();
        lines.push(self.summary_of_ends());
        lines.join("\n")
    }

    fn summary_of(&self, letter: char) -> String {
        let of_entry = self.answers.iter().filter(|((entry, _), _)| *entry == letter);
        let numbers: Vec<String> = of_entry.map(|((_, number), count)| format!(" {number}: {count}")).collect();
        format!("{letter} {}", numbers.join(","))
    }

    fn add(&mut self, reach: String) {
        *self.counts.entry(reach).or_default() += 1;
    }

    /// What an entry reached; where it leaves a state, it counts once that is shown.
    fn add_of(&mut self, letter: char, reach: String) {
        match Subject::of(letter) {
            None => self.add(reach),
            Some(subject) => self.unshown[subject as usize].push(reach),
        }
    }

    fn add_outcome(&mut self, outcome: &Outcome) {
        let Outcome::Answered(command, answer) = outcome else {
            return self.add("script error".to_string());
        };
        let letter = command.letter();
        *self.answers.entry((letter, answer.number())).or_default() += 1;
        if let Some(subject) = Subject::of(letter) {
            self.unshown[subject as usize].clear();
        }
        for text in causes::texts(letter, &command.causes(&self.held)) {
            self.add_of(letter, text);
        }
        self.add_given(command, answer);
        self.add_stayed(letter, answer.number());
        self.add_soundness(letter, answer);
        self.add_sheet_marks(command, answer);
        self.add_both_checksums(command, answer);
        match command {
            Command::Checksum(given) => self.add_checksum(given, answer),
            Command::Read(given) => self.add_read(given, answer),
            Command::Write(write) => self.add_write(write, answer),
            Command::Bench(input) => self.add_bench(input, answer),
            Command::Encode(encode) => self.add_encode(encode, answer),
            Command::OpenSlot(_) => self.add_opening(answer),
            Command::Arrived(_) | Command::Boundary | Command::OwnSending => self.add_event(command, answer),
            Command::PutStatus(numbers) => self.add_put_status(numbers),
            Command::Load(_) => self.add_load(answer),
            Command::OpenCycle(cycle) => self.add_open_cycle(*cycle, answer),
            Command::Measure(times) => self.add_measure(*times, answer),
            Command::CloseCycle(_) => self.add_close(answer),
            Command::PutClock(numbers) => self.add_put_clock(numbers),
            Command::Show => {
                self.add_shown(&[Subject::Status, Subject::Clock]);
                self.add_shown_status();
                self.add_shown_frames();
            }
            Command::OpenReader(_) => self.add_open_reader(answer),
            Command::Listen(listen) => self.add_listen(listen, answer),
            Command::PutReader(numbers) => self.add_put_reader(numbers),
            Command::ShowReader => self.add_shown_reader(),
        }
        Answer::to(command, &mut self.held);
    }

    fn add_shown(&mut self, subjects: &[Subject]) {
        for subject in subjects {
            mem::take(&mut self.unshown[*subject as usize]).into_iter().for_each(|reach| self.add(reach));
        }
    }
}

fn required() -> Vec<String> {
    let mut all = vec!["script error".to_string()];
    all.extend(causes::required());
    all.extend(given::required());
    all.extend(stays::required());
    all.extend(frames::required());
    all.extend(null_frames::required());
    all.extend(damage::required());
    all.extend(bench::required());
    all.extend(streams::required());
    all.extend(slots::required());
    all.extend(second_frames::required());
    all.extend(both_checksums::required());
    all.extend(soundness::required());
    all.extend(unlooked::required());
    all.extend(cycles::required());
    all.extend(measuring::required());
    all.extend(closing::required());
    all.extend(two_cycles::required());
    all.extend(sheet_marks::required());
    all.extend(reader::required());
    all.extend(reader_soundness::required());
    all.extend(ends::required());
    all
}

#[cfg(test)]
mod tests {
    use super::*;
    use crate::channel::Channel;
    use crate::clock::Times;
    use crate::clock_scene::{status_with, wide_settings};
    use crate::closing::Controls;
    use crate::listed_frames::NOT_ZEROS;
    use crate::plan::Expected;
    use crate::random::Random;
    use crate::refusal::Refusal;
    use crate::replay::Replay;
    use crate::scene::{Kind, Scene};
    use crate::script::Write;
    use crate::sheet_mark::SheetMark;

    fn reaches(commands: &[&Command], text: &str) -> bool {
        let mut plan = Plan::default();
        commands.iter().for_each(|command| plan.add((*command).clone(), Expected::Anything));
        let outcomes: Vec<Outcome> = Replay::of(&plan.script()).collect();
        Reached::count(&plan, &outcomes).counts.contains_key(text)
    }

    #[test]
    fn what_leaves_a_state_counts_once_that_is_shown_unchanged() {
        let open = Scene::any(&mut Random::from_seed(4)).open();
        let (frame, event, show) = (Command::checksum(0, &[]), Command::OwnSending, Command::Show);
        for commands in [&[&open, &event, &frame, &show][..], &[&open, &event, &show, &frame, &frame, &show]] {
            assert!(reaches(commands, "Status stays beside F 0"));
            assert!(reaches(commands, "X with causes for []"));
        }
        for commands in [
            &[&open, &event, &show, &frame][..],
            &[&open, &frame, &show],
            &[&open, &frame, &show, &event, &show],
            &[&open, &event, &frame, &event, &show],
        ] {
            assert!(!reaches(commands, "Status stays beside F 0"));
        }
        assert!(!reaches(&[&open, &event, &open, &show], "X with causes for []"));
        assert!(reaches(&[&frame], "F with causes for []"));
    }

    #[test]
    fn a_payload_counts_where_nothing_else_is_wrong() {
        let write =
            |payload: &[u8], room| Command::Write(Write { payload: payload.to_vec(), id: 1, room, ..Write::default() });
        let one = "null frame bit 0, 2 bytes, 9 at 1 on 0: 26";
        assert!(reaches(&[&write(&[0, 9], 10)], one));
        assert!(!reaches(&[&write(&[0, 9], 9)], one));
        assert!(!reaches(&[&write(&[8, 9], 10)], one));
        assert!(reaches(&[&write(&[0, 9], 9)], "NullFramePayload beside Output given spare room -1: 26"));
        assert!(!reaches(&[&write(&[0, 0], 9)], "NullFramePayload beside Output given spare room -1: 13"));
        assert!(reaches(&[&write(&[0, 0], 10)], "2 zeros with flags 0 on 0: 0"));
    }

    #[test]
    fn what_was_read_counts_when_it_is_written() {
        let frame = NOT_ZEROS.bytes(Channel::B);
        let (read, write) = (Command::read(1, &frame), Command::Write(NOT_ZEROS.write(Channel::B)));
        let again = "4 bytes, zeros: false, null: true, reserved: false, on 1, read and then written: 26";
        assert!(reaches(&[&read, &write], again));
        assert!(!reaches(&[&write, &read], again));
        assert!(!reaches(&[&Command::read(0, &frame), &write], again));
        assert!(reaches(&[&read], "R of a null frame of 4 bytes, zeros: false, on 1: 0"));
    }

    /// 02 C-18: what is told counts with the size of the frame, and what a slot keeps once it is shown.
    #[test]
    fn checksums_count_where_they_are_told_and_kept() {
        let mut random = Random::from_seed(18);
        let scene = Scene::fair(&mut random, Channel::B, Kind::Static);
        let wrong =
            [Refusal::HeaderChecksum, Refusal::FrameChecksum].map(|refusal| scene.refused(&mut random, refusal));
        let size = wrong[0].bytes.len();
        let [header, trailer] = wrong.map(|wrong| Command::Arrived(wrong.bytes));
        let (open, show) = (scene.open(), Command::Show);
        let both = "opened on B: [4, 8], others later: true";
        assert!(reaches(&[&open, &header, &trailer, &show], both));
        assert!(!reaches(&[&open, &header, &trailer], both) && !reaches(&[&open, &trailer, &header, &show], both));
        assert!(reaches(&[&open, &header, &show, &trailer], "opened on B: [4], others later: false"));
        let frame = NOT_ZEROS.bytes(Channel::A);
        let (read, bench) = (Command::read(1, &frame), Command::bench(1, &frame));
        assert!(reaches(&[&open, &header, &show], &format!("A tells 4 of {size} bytes on 1")));
        assert!(reaches(&[&read], "R tells 8 of 12 bytes on 1") && !reaches(&[&bench], "R tells 8 of 12 bytes on 1"));
        // 0x6F72BA for 0x0928BF.
        assert!(reaches(&[&bench], "P tells 8 on 1, 7 and 6 digits"));
        assert!(!reaches(&[&Command::bench(0, &frame)], "P tells 8 on 0, 7 and 6 digits"));
    }

    /// 02 C-17: what follows a load counts behind the sheet that was there before, until another one is put.
    #[test]
    fn loads_over_lists_count_by_their_marks() {
        let sheet = |mark| Command::Load(wide_settings(false).with_mark(SheetMark(mark)));
        let status = Command::PutStatus(status_with(wide_settings(false), Channel::A, 7, 4, 0b01000));
        let [open, measure, close] =
            [Command::OpenCycle(4), Command::Measure(Times::default()), Command::CloseCycle(Controls::NONE)];
        let put = Command::put_clock(&ClockNumbers::default());
        let (one, two, show) = (sheet(1), sheet(2), Command::Show);
        let cycle = [&open, &status, &measure];
        let behind = |between: &[&Command], text: &str| {
            reaches(&[&[&one][..], &cycle, between, &cycle, &[&show, &close, &show]].concat(), text)
        };
        let same = "load in an even cycle, the same mark, the same fields: measured once more on A";
        let other = "load in an even cycle, another mark, the same fields: measured once more on A";
        assert!(behind(&[&one], same) && !behind(&[&one], other));
        assert!(behind(&[&two], other) && !behind(&[&two], same));
        assert!(!behind(&[&one, &two], same) && !behind(&[&two, &put, &two], other));
        let report = |mark| {
            format!("Opened: an even cycle closed under mark {mark}, offset missing: false, rate missing: false")
        };
        assert!(behind(&[&two], &report(2)) && !behind(&[&two], &report(1)));
    }
}
