//! Clock commands at random: lifelike cycles from a load on, or from a clock state that was put.

use crate::channel::Channel;
use crate::checksum_pair::ChecksumPair;
use crate::clock::Times;
use crate::clock_faults::{
    fair_controls, fair_times, unsound, wrong_controls, wrong_times, wrongly_marked, LONGEST_CYCLE,
};
use crate::clock_numbers::ClockNumbers;
use crate::clock_scene::{behind_syntax_error, doubled, fair_clock, some_ids, sync_status, HIGHEST_SYNC_ID};
use crate::draft::fair_cycle;
use crate::faults::{wrong_cycle, wrong_value};
use crate::frame::HIGHEST_CYCLE;
use crate::random::Random;
use crate::scene::{fair_settings, Kind, Scene};
use crate::script::Command;
use crate::settings::{Settings, FIELDS, RATE_LIMIT, STATIC_WORDS};
use crate::sheet_mark::SheetMark;
use crate::status_numbers::StatusNumbers;
use crate::sync_list::PLACES;

const MOST_CYCLES: usize = 5;

/// The sync frames around a node, and its counter.
struct Cluster {
    ids: Vec<u16>,
    /// How much later they come in an odd cycle than in the even one.
    drift: i32,
    /// 02 C-17: the mark of every other sheet.
    mark: SheetMark,
    /// What the counter shows where an odd cycle begins: 0, or with one that runs on (02 C-12) the length of the even one.
    odd_begins: i32,
}

impl Cluster {
    fn mark_some(&self, random: &mut Random, settings: Settings) -> Settings {
        if random.coin() {
            return settings.with_mark(self.mark);
        }
        settings
    }
}

pub fn episode(random: &mut Random) -> Vec<Command> {
    let cluster = any_cluster(random);
    let mut commands = vec![start(random, &cluster), Command::Show];
    let mut cycle = fair_cycle(random) & !1;
    for _ in 0..random.between(1, MOST_CYCLES) {
        commands.extend(one_cycle(random, &cluster, cycle));
        cycle = next_cycle(random, cycle);
    }
    commands
}

fn any_cluster(random: &mut Random) -> Cluster {
    let count = if random.one_in(4) { random.between(5, PLACES + 1) } else { random.between(1, 4) };
    let mut ids = some_ids(random, count);
    ids.iter_mut().for_each(|id| *id = (*id - 1) % HIGHEST_SYNC_ID + 1);
    Cluster {
        ids,
        drift: random.between(0, 60) as i32 - 30,
        mark: SheetMark::any(random),
        odd_begins: odd_begins(random),
    }
}

fn odd_begins(random: &mut Random) -> i32 {
    match random.below(4) {
        0 => LONGEST_CYCLE as i32,
        1 => random.between(60_000, LONGEST_CYCLE as usize) as i32,
        _ => 0,
    }
}

/// A load as a rule.
fn start(random: &mut Random, cluster: &Cluster) -> Command {
    match random.below(21) {
        0..=13 => Command::Load(any_settings(random, cluster)),
        14 => {
            let field = random.between(1, FIELDS);
            Command::Load(any_settings(random, cluster).with_field(field, wrong_value(random, field)))
        }
        15..=17 => Command::put_clock(&ClockNumbers { open: false, ..fair_clock(random) }),
        18 => Command::put_clock(&fair_clock(random)),
        wrong => {
            let sound = fair_clock(random);
            let spoilt = if wrong == 19 { unsound(random, sound) } else { wrongly_marked(random, sound) };
            Command::put_clock(&spoilt)
        }
    }
}

/// Limits small enough to be met now and then.
fn any_settings(random: &mut Random, cluster: &Cluster) -> Settings {
    let fair = fair_settings(random);
    let fair = cluster.mark_some(random, fair);
    if random.coin() {
        return fair.with_field(RATE_LIMIT, random.between(0, 60) as u32);
    }
    fair
}

fn next_cycle(random: &mut Random, cycle: u8) -> u8 {
    if random.one_in(10) {
        return fair_cycle(random);
    }
    (cycle + 1) % (HIGHEST_CYCLE + 1)
}

fn one_cycle(random: &mut Random, cluster: &Cluster, cycle: u8) -> Vec<Command> {
    let mut commands = vec![Command::OpenCycle(if random.one_in(24) { wrong_cycle(random) } else { cycle })];
    if random.one_in(3) {
        commands.push(Command::Show);
    }
    for id in &cluster.ids {
        for channel in Channel::BOTH {
            if !random.one_in(3) {
                commands.extend(one_frame(random, cluster, *id, channel, cycle));
            }
        }
        if random.one_in(30) {
            commands.extend(loaded_anew(random, cluster, cycle));
        }
    }
    commands.push(noise(random, cluster));
    commands.push(Command::CloseCycle(if random.one_in(16) { wrong_controls(random) } else { fair_controls(random) }));
    commands.push(Command::Show);
    commands
}

/// 02 C-17: another sheet in the middle of a cycle, with the same mark or another one, and the same cycle or another one.
fn loaded_anew(random: &mut Random, cluster: &Cluster, cycle: u8) -> Vec<Command> {
    let cycle = if random.one_in(4) { fair_cycle(random) } else { cycle };
    vec![Command::Load(any_settings(random, cluster)), Command::Show, Command::OpenCycle(cycle)]
}

/// A status that was put, or a slot opened in which the frame arrives, and its measurement.
fn one_frame(random: &mut Random, cluster: &Cluster, id: u16, channel: Channel, cycle: u8) -> Vec<Command> {
    let cycle = if random.one_in(30) { fair_cycle(random) } else { cycle };
    let mut put = sync_status(random, channel, id, cycle);
    put.settings = cluster.mark_some(random, put.settings);
    let mut commands = match random.below(11) {
        0 | 1 => vec![Command::PutStatus(put)],
        2 => vec![Command::PutStatus(doubled(put))],
        3 => vec![Command::PutStatus(with_checksums(random, put))],
        _ => slot_of_frame(random, channel, put.settings, id, cycle),
    };
    let times = match random.below(24) {
        0 => wrong_times(random),
        1 | 2 => fair_times(random),
        _ => drifted(random, cluster, cycle),
    };
    commands.push(Command::Measure(times));
    if random.one_in(20) {
        commands.extend([Command::Measure(times), Command::Show]);
    }
    commands
}

/// 02 C-18: behind a syntax error as a rule, without which they are not sound.
fn with_checksums(random: &mut Random, status: StatusNumbers) -> StatusNumbers {
    let checksums = ChecksumPair::some(random);
    if random.one_in(4) {
        return StatusNumbers { checksums, ..status };
    }
    behind_syntax_error(status, checksums)
}

fn slot_of_frame(random: &mut Random, channel: Channel, settings: Settings, id: u16, cycle: u8) -> Vec<Command> {
    let settings = settings.with_field(STATIC_WORDS, random.below(3) as u32);
    let slot = Scene { settings, channel, slot: id, cycle, kind: Kind::Static };
    let mut good = slot.good(random);
    good.indicators.sync |= !random.one_in(20);
    good.indicators.startup &= good.indicators.sync;
    let mut commands = vec![slot.open(), Command::Arrived(good.bytes())];
    if random.one_in(20) {
        commands.remove(1);
    }
    // 02 C-15: a second frame, which may be no sync frame.
    if random.one_in(8) {
        commands.push(Command::Arrived(slot.good(random).bytes()));
    }
    commands
}

/// Deviations in odd cycles differ from those in even ones by the drift, wherever the counter stands.
fn drifted(random: &mut Random, cluster: &Cluster, cycle: u8) -> Times {
    let odd = i32::from(cycle % 2);
    let action_point = random.between(2_000, 60_000) as i32 + odd * cluster.odd_begins;
    let late = random.between(0, 40) as i32 + 250 + odd * cluster.drift;
    Times { observed: (action_point + late) as u32, action_point: action_point as u32 }
}

/// What shouldn't come in the middle of a cycle, or a showing.
fn noise(random: &mut Random, cluster: &Cluster) -> Command {
    match random.below(24) {
        0 => Command::OpenCycle(fair_cycle(random)),
        1 => Command::CloseCycle(fair_controls(random)),
        2 => start(random, cluster),
        _ => Command::Show,
    }
}

#[cfg(test)]
mod tests {
    use super::*;
    use crate::answer::{Answer, Held};
    use crate::clock::list_of;
    use crate::replay::{Outcome, Replay};

    fn some_outcomes() -> Vec<Outcome> {
        let mut random = Random::from_seed(21);
        let mut script = Vec::new();
        for _ in 0..300 {
            episode(&mut random).iter().for_each(|command| command.append_to(&mut script));
        }
        Replay::of(&script).collect()
    }

    /// Most commands are accepted, terms of every kind are found, and refusals turn up as well.
    #[test]
    fn most_clock_commands_are_accepted() {
        let lines: Vec<String> = some_outcomes().iter().map(Outcome::line).collect();
        let count = |start: &str| lines.iter().filter(|line| line.starts_with(start)).count();
        for entry in ["open", "measure", "close"] {
            assert!(2 * count(&format!("{entry} 0")) > count(entry), "{entry}");
        }
        for refused in ["measure 15", "measure 16", "measure 22", "measure 14", "measure 20", "close 18", "open 19"] {
            assert!(count(refused) > 0, "{refused}");
        }
        assert_eq!(count("script error"), 0);
    }

    /// 02 C-15: statuses with (f) are measured like others.
    #[test]
    fn some_statuses_have_second_frames() {
        let measured = |pair: &&[Outcome]| match pair {
            [Outcome::Answered(Command::PutStatus(put), _), Outcome::Answered(Command::Measure(_), answer)] => {
                put.reason == 6 && answer.refusal().is_none()
            }
            _ => false,
        };
        assert!(some_outcomes().windows(2).filter(measured).count() > 50);
    }

    /// 02 C-18: statuses with checksums are measured where they have a syntax error as well, and refused where they haven't.
    #[test]
    fn some_statuses_have_checksums() {
        let measured = |pair: &[Outcome]| match pair {
            [Outcome::Answered(Command::PutStatus(put), _), Outcome::Answered(Command::Measure(_), answer)] => {
                (!put.checksums.is_none()).then_some((put.marks & 1, answer.number()))
            }
            _ => None,
        };
        let answers: Vec<(u8, u8)> = some_outcomes().windows(2).filter_map(measured).collect();
        let count = |answer| answers.iter().filter(|other| **other == answer).count();
        assert!(count((1, 0)) > 50 && count((0, 23)) > 20, "{} and {}", count((1, 0)), count((0, 23)));
        assert_eq!(count((0, 0)), 0);
    }

    /// 02 C-17: sheets with the mark that is held and with others take the place of lists in the middle of a cycle, statuses
    /// are measured under the clock's mark and under others, and of the states that are put few have wrong marks.
    #[test]
    fn marks_are_often_equal_and_often_not() {
        let mut held = Held::default();
        let (mut loads, mut measured, mut put) = ([0; 2], [0; 2], [0; 2]);
        for outcome in some_outcomes() {
            let Outcome::Answered(command, answer) = outcome else {
                panic!("the script is whole");
            };
            let (of_clock, of_status) = (held.clock.settings.mark, held.status.settings.mark);
            let listed = held.clock.open.is_some_and(|cycle| held.clock.lists[list_of(cycle)].count() > 0);
            match &command {
                Command::Load(sheet) if listed => loads[usize::from(sheet.mark == of_clock)] += 1,
                Command::Measure(_) if answer.refusal().is_none() => measured[usize::from(of_status == of_clock)] += 1,
                Command::PutClock(numbers) => put[usize::from(numbers.marked() == **numbers)] += 1,
                _ => (),
            }
            Answer::to(&command, &mut held);
        }
        assert!(loads.iter().all(|count| *count > 20), "{loads:?}");
        assert!(measured.iter().all(|count| *count > 400), "{measured:?}");
        assert!(put[0] > 8 && put[1] > 3 * put[0], "{put:?}");
    }

    /// 02 C-12: both times in the second cycle of the counter, or one of them.
    #[test]
    fn some_counters_run_on() {
        let accepted = |outcome: Outcome| match outcome {
            Outcome::Answered(Command::Measure(times), answer) if answer.refusal().is_none() => Some(times),
            _ => None,
        };
        let accepted: Vec<Times> = some_outcomes().into_iter().filter_map(accepted).collect();
        let count = |second| {
            let in_second =
                |times: &&Times| [times.observed, times.action_point].map(|time| time > 1_280_000) == second;
            accepted.iter().filter(in_second).count()
        };
        assert!(count([true, true]) > 100 && count([false, true]) > 8 && count([true, false]) > 8);
    }
}
