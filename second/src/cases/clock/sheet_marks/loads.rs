//! Loads in the middle of a cycle and between two: also one with the same mark is a load, which leaves nothing of what was
//! listed, and all that follows has its mark.

use super::super::listed::TIMES_OF_01;
use crate::channel::Channel;
use crate::clock::Times;
use crate::clock_history::{close, load, measure, open, refuse, show};
use crate::clock_numbers::{ClockNumbers, ListNumbers};
use crate::clock_scene::{closed, late_settings, list, open_at, row_on, sync_status};
use crate::closing::Controls;
use crate::plan::Plan;
use crate::random::Random;
use crate::refusal::Refusal;
use crate::script::Command;
use crate::settings::Settings;
use crate::sheet_mark::SheetMark;

/// The one ID that is measured.
const ID: u16 = 5;

/// In an odd cycle behind an even one it comes 6 later.
const LATER: Times = Times { observed: 1_006, action_point: 900 };

/// The mark before a load and the one behind it: the same, another, and one that differs in a bit, in a half or in the order
/// of bytes alone.
const MARKS: [[u32; 2]; 13] = [
    [0, 0],
    [1, 1],
    [0x8765_4321, 0x8765_4321],
    [u32::MAX, u32::MAX],
    [0, 1],
    [0, u32::MAX],
    [u32::MAX, 0],
    [0x8765_4321, 0],
    [0x8765_4321, 0x8765_4320],
    [0x8765_4321, 0x0765_4321],
    [0x8765_4321, 0x0000_4321],
    [0x8765_4321, 0x8765_0000],
    [0x8765_4321, 0x2143_6587],
];

pub(super) fn add(plan: &mut Plan, random: &mut Random) {
    for channel in Channel::BOTH {
        for [old, new] in MARKS {
            add_loads(plan, random, &Loads { channel, old: sheet(old, 0), new: sheet(new, 40), deviation: 60 });
            if old == new {
                // The very same sheet once more.
                add_loads(plan, random, &Loads { channel, old: sheet(old, 0), new: sheet(new, 0), deviation: 100 });
            }
        }
    }
}

fn sheet(mark: u32, delay: u32) -> Settings {
    late_settings(0, [delay, delay]).with_mark(SheetMark(mark))
}

/// A sheet without delays, by which the times of 01 give 100, and one that is loaded behind it, with what they give by that.
struct Loads {
    channel: Channel,
    old: Settings,
    new: Settings,
    deviation: i32,
}

fn add_loads(plan: &mut Plan, random: &mut Random, loads: &Loads) {
    loads.add_in_even(plan, random);
    loads.add_in_odd(plan, random);
    loads.add_between(plan, random);
}

impl Loads {
    fn one(&self, deviation: i32) -> ListNumbers {
        list(&[row_on(ID, self.channel, deviation)])
    }

    /// Opens a cycle in which nothing is listed but an even list from before, and measures the ID.
    fn add_measured(&self, plan: &mut Plan, random: &mut Random, before: &ClockNumbers, times: Times, deviation: i32) {
        open(plan, before.cycle);
        show(plan, before);
        measure(plan, &sync_status(random, self.channel, ID, before.cycle), times, deviation.into());
        let mut after = *before;
        after.lists[usize::from(before.cycle % 2)] = self.one(deviation);
        show(plan, &after.marked());
    }

    /// The old sheet and an even cycle.
    fn add_old(&self, plan: &mut Plan, random: &mut Random) {
        load(plan, self.old);
        self.add_measured(plan, random, &open_at(self.old, 4, Default::default()), TIMES_OF_01, 100);
    }

    /// The even cycle's end.
    fn close_old(&self, plan: &mut Plan) -> ClockNumbers {
        close(plan, self.old.mark, "close 0 100 0 0 0 0 0 1");
        let held = closed(&open_at(self.old, 4, [self.one(100), list(&[])]), 0);
        show(plan, &held);
        held
    }

    /// The new sheet: no cycle is open any more, and nothing is reported.
    fn load_new(&self, plan: &mut Plan) {
        let fresh = ClockNumbers { settings: self.new, ..ClockNumbers::default() };
        load(plan, self.new);
        show(plan, &fresh);
        refuse(plan, &fresh, Command::CloseCycle(Controls::NONE), Refusal::NoCycleOpen);
    }

    /// An odd cycle under the new sheet. No cycle was closed since the load, so that there is no even list and no rate.
    fn add_new_odd(&self, plan: &mut Plan, random: &mut Random) {
        let (new, deviation) = (self.new, self.deviation);
        self.add_measured(plan, random, &open_at(new, 5, Default::default()), TIMES_OF_01, deviation);
        close(plan, new.mark, &format!("close 0 {deviation} 0 0 1 0 0 1"));
        show(plan, &closed(&open_at(new, 5, [list(&[]), self.one(deviation)]), 0));
    }

    /// In the cycles behind the load the even list stays, with its mark, and the rate comes of it.
    fn add_in_even(&self, plan: &mut Plan, random: &mut Random) {
        let (new, deviation, later) = (self.new, self.deviation, self.deviation + 6);
        self.add_old(plan, random);
        self.load_new(plan);
        self.add_measured(plan, random, &open_at(new, 4, Default::default()), TIMES_OF_01, deviation);
        close(plan, new.mark, &format!("close 0 {deviation} 0 0 0 0 0 1"));
        let held = closed(&open_at(new, 4, [self.one(deviation), list(&[])]), 0);
        show(plan, &held);
        self.add_measured(plan, random, &ClockNumbers { open: true, cycle: 5, ..held }, LATER, later);
        close(plan, new.mark, &format!("close 0 {later} 6 0 0 0 0 1"));
        show(plan, &closed(&open_at(new, 5, [self.one(deviation), self.one(later)]), 6));
    }

    fn add_in_odd(&self, plan: &mut Plan, random: &mut Random) {
        self.add_old(plan, random);
        let held = self.close_old(plan);
        self.add_measured(plan, random, &ClockNumbers { open: true, cycle: 5, ..held }, LATER, 106);
        self.load_new(plan);
        self.add_new_odd(plan, random);
        open(plan, 6);
        close(plan, self.new.mark, "close 0 0 0 1 0 0 0 0");
        show(plan, &closed(&open_at(self.new, 6, Default::default()), 0));
    }

    fn add_between(&self, plan: &mut Plan, random: &mut Random) {
        self.add_old(plan, random);
        self.close_old(plan);
        self.load_new(plan);
        self.add_new_odd(plan, random);
    }
}
