//! Commands of every other sort between two showings of a reader, which stays as it is, and the other way round.

use super::{behind, hear, open, put, show};
use crate::cases::clock::between::{clock_commands, each, foreign_commands};
use crate::channel::Channel;
use crate::clock_faults::faulty_measure;
use crate::clock_history;
use crate::clock_numbers::ClockNumbers;
use crate::clock_scene::fair_clock;
use crate::history::{self, Happening, Sort};
use crate::plan::{Expected, Plan};
use crate::random::Random;
use crate::reader_numbers::ReaderNumbers;
use crate::refusal::MEASURE_ORDER;
use crate::samples;
use crate::scene::Scene;
use crate::script::{Command, Listen};

pub fn add(plan: &mut Plan, random: &mut Random) {
    for channel in Channel::BOTH {
        add_reader_stays(plan, random, channel);
        add_others_stay(plan, random, channel);
    }
}

/// In the middle of a frame, whose bytes stay as well: it is heard to its end.
fn add_reader_stays(plan: &mut Plan, random: &mut Random, channel: Channel) {
    let stream = samples::short_stream(channel);
    let (before, rest) = stream.split_at(500);
    for commands in [foreign_commands(random), clock_commands(random), measurements(random)] {
        open(plan, channel);
        hear(plan, before, &[]);
        commands.into_iter().for_each(|command| plan.add(command, Expected::Anything));
        show(plan, &behind(channel, before));
        hear(plan, rest, &[0]);
    }
}

/// Every answer to a measurement.
fn measurements(random: &mut Random) -> Vec<Command> {
    let mut all = Vec::new();
    for faults in each(&MEASURE_ORDER) {
        let faulty = faulty_measure(random, &faults);
        all.push(Command::put_clock(&faulty.clock));
        all.extend(faulty.status.map(Command::PutStatus));
        all.push(faulty.command);
    }
    all
}

/// A status with marks and a clock state with lists, and every answer of the reader's commands behind them.
fn add_others_stay(plan: &mut Plan, random: &mut Random, channel: Channel) {
    let scene = Scene::any(random);
    let happened = [Happening::any(random, &scene, Sort::Good), Happening::OwnSending];
    history::play_opened(plan, &scene, &happened);
    let status = history::demanded(&scene.fresh(), &happened);
    let mut clock = ClockNumbers { open: true, closed: true, ..fair_clock(random) };
    clock.lists.iter_mut().for_each(|list| list.count = list.count.max(2));
    let clock = clock.marked();
    clock_history::put(plan, &clock);
    open(plan, channel);
    hear(plan, &samples::short_stream(channel), &[0]);
    hear(plan, &samples::behind_idle(3, &[0; 8]), &[4]);
    plan.add(Command::Listen(Listen::default()), Expected::line("heard 36 0 0 0"));
    put(plan, &ReaderNumbers::default());
    plan.add(Command::listen(&[1]), Expected::line("heard 23 0 0 0"));
    plan.add(Command::OpenReader(9), Expected::line("reader 1"));
    plan.add(Command::ShowReader, Expected::Reader(ReaderNumbers::default()));
    history::show(plan, &status);
    clock_history::show(plan, &clock);
}
