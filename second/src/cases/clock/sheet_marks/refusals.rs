//! Refused calls on clocks under a mark: a refused closing tells mark 0, and every mark stays as it is.

use super::MARKS;
use crate::channel::Channel::A;
use crate::clock::Times;
use crate::clock_history::{put, refuse, NO_TIME};
use crate::clock_numbers::ClockNumbers;
use crate::clock_scene::{list, open_at, row, status_with, sync_status, wide_settings};
use crate::closing::Controls;
use crate::history;
use crate::plan::Plan;
use crate::random::Random;
use crate::refusal::Refusal;
use crate::script::Command;
use crate::settings::SYNC_ID_LIMIT;
use crate::sheet_mark::SheetMark;
use crate::status_numbers::StatusNumbers;

const CLOSE: Command = Command::CloseCycle(Controls::NONE);
const WRONG_CONTROL: Command = Command::CloseCycle(Controls { offset: 0, rate: 2 });
const MEASURE: Command = Command::Measure(NO_TIME);
const TOO_LATE: Command = Command::Measure(Times { observed: 2_560_001, action_point: 0 });

pub(super) fn add(plan: &mut Plan, random: &mut Random) {
    for mark in MARKS {
        for cycle in [10, 11] {
            add_refused(plan, random, mark, cycle);
        }
    }
}

/// Two lists that are full, with a limit of 2.
fn full(mark: SheetMark, cycle: u8) -> ClockNumbers {
    let settings = wide_settings(false).with_field(SYNC_ID_LIMIT, 2).with_mark(mark);
    let rows = list(&[row(1, Some(5), None), row(2, Some(6), Some(7))]);
    open_at(settings, cycle, [rows, rows])
}

fn add_refused(plan: &mut Plan, random: &mut Random, mark: SheetMark, cycle: u8) {
    let opened = full(mark, cycle);
    let none_open = ClockNumbers { open: false, ..opened };
    let unsound = ClockNumbers { rate: 4_001, ..opened };
    let mut wrong_mark = opened;
    wrong_mark.lists[1].rows[1].pair[0] = mark.with_bit_turned(7);
    let sync = sync_status(random, A, 1, cycle);
    let no_sync = status_with(sync.settings, A, 1, cycle, 0b00100);
    // "Conflict" without own sending.
    let unsound_status = StatusNumbers { marks: sync.marks ^ 8, ..sync };
    let [other_cycle, one_more] = [(1, cycle ^ 2), (3, cycle)].map(|(id, cycle)| sync_status(random, A, id, cycle));
    let cases: [(&ClockNumbers, &StatusNumbers, Command, Refusal); 15] = [
        (&unsound, &sync, CLOSE, Refusal::NotSound),
        (&wrong_mark, &sync, CLOSE, Refusal::NotSound),
        (&none_open, &sync, CLOSE, Refusal::NoCycleOpen),
        (&opened, &sync, WRONG_CONTROL, Refusal::Control),
        (&unsound, &sync, Command::OpenCycle(12), Refusal::NotSound),
        (&none_open, &sync, Command::OpenCycle(64), Refusal::Cycle),
        (&opened, &sync, Command::OpenCycle(12), Refusal::CycleOpenAlready),
        (&unsound, &sync, MEASURE, Refusal::NotSound),
        (&opened, &unsound_status, MEASURE, Refusal::NotSound),
        (&none_open, &sync, MEASURE, Refusal::NoCycleOpen),
        (&opened, &sync, TOO_LATE, Refusal::Time),
        (&opened, &no_sync, MEASURE, Refusal::NoSyncFrame),
        (&opened, &other_cycle, MEASURE, Refusal::OtherCycle),
        (&opened, &sync, MEASURE, Refusal::MeasuredAlready),
        (&opened, &one_more, MEASURE, Refusal::ListFull),
    ];
    for (held, status, command, refusal) in cases {
        history::put(plan, status);
        put(plan, held);
        refuse(plan, held, command, refusal);
    }
}
