//! Frame and slot commands between two showings of a clock state, which stays as it is, and the other way round.

use crate::clock_faults::{faulty_close, faulty_measure, faulty_open};
use crate::clock_history::{put, show};
use crate::clock_numbers::ClockNumbers;
use crate::clock_scene::fair_clock;
use crate::faults::{
    faulty_bench, faulty_checksum, faulty_encode, faulty_opening, faulty_read, faulty_write, wrong_value,
};
use crate::history::{self, Happening, Sort};
use crate::plan::{Expected, Plan};
use crate::random::Random;
use crate::refusal::{
    Refusal, CLOSE_CYCLE_ORDER, ENCODE_ORDER, MEASURE_ORDER, OPEN_CYCLE_ORDER, OPEN_SLOT_ORDER, READ_ORDER, WRITE_ORDER,
};
use crate::scene::{fair_settings, Scene};
use crate::script::Command;
use crate::settings::SYNC_ID_LIMIT;
use crate::status_numbers::StatusNumbers;

pub fn add(plan: &mut Plan, random: &mut Random) {
    for open in [false, true] {
        add_clock_stays(plan, random, open);
        add_status_stays(plan, random);
    }
}

/// No refusal, and then each one of an order.
pub(in crate::cases) fn each(order: &[Refusal]) -> Vec<Vec<Refusal>> {
    let mut all = vec![Vec::new()];
    all.extend(order.iter().map(|refusal| vec![*refusal]));
    all
}

fn add_clock_stays(plan: &mut Plan, random: &mut Random, open: bool) {
    let mut held = ClockNumbers { open, closed: true, ..fair_clock(random) };
    held.lists.iter_mut().for_each(|list| list.count = list.count.max(2));
    let held = held.marked();
    put(plan, &held);
    show(plan, &held);
    for command in foreign_commands(random) {
        plan.add(command, Expected::Anything);
        show(plan, &held);
    }
}

/// Every answer of every command that is about frames or slots.
pub(in crate::cases) fn foreign_commands(random: &mut Random) -> Vec<Command> {
    let mut all: Vec<Command> =
        each(&[Refusal::Channel]).iter().map(|faults| faulty_checksum(random, faults)).collect();
    all.extend(each(&READ_ORDER).iter().map(|faults| faulty_read(random, faults)));
    all.extend(each(&WRITE_ORDER).iter().map(|faults| faulty_write(random, faults)));
    all.extend(each(&READ_ORDER).iter().map(|faults| faulty_bench(random, faults)));
    all.extend(each(&ENCODE_ORDER).iter().map(|faults| faulty_encode(random, faults)));
    // Refused openings first, so that events find the status of all zeros.
    for faults in each(&OPEN_SLOT_ORDER).iter().rev() {
        all.push(Command::OpenSlot(faulty_opening(random, faults)));
        all.extend([Command::Arrived(random.bytes(9)), Command::Boundary, Command::OwnSending]);
    }
    let scene = Scene::any(random);
    all.extend([scene.open(), Command::Arrived(scene.good(random).bytes())]);
    all.push(Command::PutStatus(StatusNumbers { settings: fair_settings(random), ..scene.fresh() }));
    all
}

/// A status that has marks, and clock commands of every answer behind it.
fn add_status_stays(plan: &mut Plan, random: &mut Random) {
    let scene = Scene::any(random);
    let history = [Happening::any(random, &scene, Sort::Missing), Happening::OwnSending];
    history::play_opened(plan, &scene, &history);
    let held = history::demanded(&scene.fresh(), &history);
    for command in clock_commands(random) {
        plan.add(command, Expected::Anything);
        history::show(plan, &held);
    }
}

pub(in crate::cases) fn clock_commands(random: &mut Random) -> Vec<Command> {
    let settings = fair_settings(random);
    let wrong = settings.with_field(SYNC_ID_LIMIT, wrong_value(random, SYNC_ID_LIMIT));
    let mut all = vec![Command::Load(settings), Command::Load(wrong)];
    let mut faulty: Vec<_> = each(&OPEN_CYCLE_ORDER).iter().map(|faults| faulty_open(random, faults)).collect();
    faulty.extend(each(&CLOSE_CYCLE_ORDER).iter().map(|faults| faulty_close(random, faults)));
    // Measured with the status that is held, which has no frame.
    faulty.extend(each(&MEASURE_ORDER[..3]).iter().map(|faults| faulty_measure(random, faults)));
    all.extend(faulty.into_iter().flat_map(|faulty| [Command::put_clock(&faulty.clock), faulty.command]));
    all
}
