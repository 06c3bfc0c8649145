//! Clock commands with what must come of them, and showings of the clock state between them.

use crate::clock::Times;
use crate::clock_numbers::ClockNumbers;
use crate::clock_scene::closed;
use crate::closing::Controls;
use crate::history;
use crate::plan::{Expected, Plan};
use crate::refusal::Refusal;
use crate::script::Command;
use crate::settings::Settings;
use crate::sheet_mark::SheetMark;
use crate::status_numbers::StatusNumbers;

pub const NO_TIME: Times = Times { observed: 0, action_point: 0 };

/// What closing must report, but for the mark, which is that of the settings.
#[derive(Clone, Copy, Debug, Default)]
pub struct Demand {
    pub offset: i64,
    pub rate: i64,
    pub offset_missing: bool,
    pub rate_missing: bool,
    pub offset_limited: bool,
    pub rate_limited: bool,
    pub ids: usize,
}

impl Demand {
    fn line(&self, mark: SheetMark) -> String {
        let flags = [self.offset_missing, self.rate_missing, self.offset_limited, self.rate_limited];
        let flags = flags.map(|flag| u8::from(flag).to_string()).join(" ");
        format!("close 0 {} {} {flags} {} {mark}", self.offset, self.rate, self.ids)
    }
}

/// A load that is taken.
pub fn load(plan: &mut Plan, settings: Settings) {
    plan.add(Command::Load(settings), Expected::line("load 0 0"));
}

/// An opening that is taken.
pub fn open(plan: &mut Plan, cycle: u8) {
    plan.add(Command::OpenCycle(cycle), Expected::line("open 0"));
}

/// A closing without external terms, and its line up to the mark.
pub fn close(plan: &mut Plan, mark: SheetMark, line: &str) {
    plan.add(Command::CloseCycle(Controls::NONE), Expected::Line(format!("{line} {mark}")));
}

pub fn put(plan: &mut Plan, numbers: &ClockNumbers) {
    plan.add(Command::put_clock(numbers), Expected::line("clock put"));
}

pub fn show(plan: &mut Plan, numbers: &ClockNumbers) {
    plan.add(Command::Show, Expected::Clock(Box::new(numbers.looked_at())));
}

/// A command that is refused, and the state that it leaves.
pub fn refuse(plan: &mut Plan, held: &ClockNumbers, command: Command, refusal: Refusal) {
    let number = refusal.number();
    let line = match command {
        Command::OpenCycle(_) => format!("open {number}"),
        Command::Measure(_) => format!("measure {number} 0"),
        _ => format!("close {number} 0 0 0 0 0 0 0 0"),
    };
    plan.add(command, Expected::Line(line));
    show(plan, held);
}

/// Opening, measuring and closing, refused because a state isn't sound.
pub fn refuse_all(plan: &mut Plan, held: &ClockNumbers) {
    for command in [Command::OpenCycle(1), Command::Measure(NO_TIME), Command::CloseCycle(Controls::NONE)] {
        refuse(plan, held, command, Refusal::NotSound);
    }
}

/// Puts the status, measures and demands the deviation.
pub fn measure(plan: &mut Plan, status: &StatusNumbers, times: Times, deviation: i64) {
    history::put(plan, status);
    plan.add(Command::Measure(times), Expected::Line(format!("measure 0 {deviation}")));
}

/// Puts the status and measures, which is refused.
pub fn refuse_measure(plan: &mut Plan, held: &ClockNumbers, status: &StatusNumbers, refusal: Refusal) {
    history::put(plan, status);
    refuse(plan, held, Command::Measure(NO_TIME), refusal);
}

/// Puts a state, closes its cycle and shows what is left with the rate stored.
pub fn close_put(plan: &mut Plan, before: &ClockNumbers, controls: Controls, demand: &Demand, stored: i64) {
    put(plan, before);
    plan.add(Command::CloseCycle(controls), Expected::Line(demand.line(before.settings.mark)));
    show(plan, &closed(before, stored as i32));
}
