//! Wrong marks where nobody looks at them, behind the count of a list or behind a clear bit of seen: every entry is accepted,
//! and nothing of them stays when the row or the channel is taken over.

use super::MARKS;
use crate::channel::Channel::{self, A, B};
use crate::clock_history::{close_put, measure, open, put, show, Demand, NO_TIME};
use crate::clock_numbers::{ClockNumbers, ListNumbers};
use crate::clock_scene::{closed, list, open_at, row, row_on, sync_status, wide_settings};
use crate::closing::Controls;
use crate::plan::Plan;
use crate::random::Random;
use crate::sheet_mark::SheetMark;
use crate::sync_list::PLACES;

/// The ID that is measured.
const ID: u16 = 9;

pub(super) fn add(plan: &mut Plan, random: &mut Random) {
    for mark in MARKS {
        for cycle in [8, 9] {
            for count in [0, 1, PLACES - 1] {
                add_behind_count(plan, random, mark, cycle, count);
            }
            for channel in Channel::BOTH {
                for unnamed in [0, 0b1111_1100] {
                    add_behind_bit(plan, random, mark, cycle, (channel, unnamed));
                }
            }
        }
    }
}

/// Good rows, of which so many are listed; the others have wrong marks.
fn behind_count(mark: SheetMark, count: usize) -> ListNumbers {
    let rows: Vec<_> = (0..PLACES).map(|place| row(300 + place as u16, Some(4), Some(4))).collect();
    let mut list = ListNumbers { count: count as u8, ..list(&rows) };
    for (bit, row) in list.rows.iter_mut().enumerate() {
        row.pair = [bit, bit + 17].map(|bit| mark.with_bit_turned(bit));
    }
    list
}

fn add_behind_count(plan: &mut Plan, random: &mut Random, mark: SheetMark, cycle: u8, count: usize) {
    let mut lists = [behind_count(mark, 0); 2];
    let place = usize::from(cycle % 2);
    lists[place] = behind_count(mark, count);
    let before = open_at(wide_settings(false).with_mark(mark), cycle, lists);
    put(plan, &before);
    show(plan, &before);
    let mut held = before;
    held.lists[place].count += 1;
    for (channel, on_b) in [(A, None), (B, Some(0))] {
        measure(plan, &sync_status(random, channel, ID, cycle), NO_TIME, 0);
        held.lists[place].rows[count] = row(ID, Some(0), on_b);
        show(plan, &held.marked());
    }
    let offset = if count > 0 { 4 } else { 0 };
    let (offset_missing, rate_missing) = (count == 0, cycle == 9);
    let demand = Demand { offset, offset_missing, rate_missing, ids: count, ..Demand::default() };
    close_put(plan, &before, Controls::NONE, &demand, 0);
    add_opened(plan, &before);
}

/// A row in each list that is seen on this channel alone, with a wrong mark on the other; bits without a name change
/// nothing.
fn add_behind_bit(plan: &mut Plan, random: &mut Random, mark: SheetMark, cycle: u8, (channel, unnamed): (Channel, u8)) {
    let mut row_of = row_on(ID, channel, 7);
    row_of.seen |= unnamed;
    row_of.pair = [mark.with_bit_turned(usize::from(cycle)); 2];
    let before = open_at(wide_settings(false).with_mark(mark), cycle, [list(&[row_of]); 2]);
    put(plan, &before);
    show(plan, &before);
    measure(plan, &sync_status(random, channel.other(), ID, cycle), NO_TIME, 0);
    let mut held = before;
    held.lists[usize::from(cycle % 2)] = match channel {
        A => list(&[row(ID, Some(7), Some(0))]),
        B => list(&[row(ID, Some(0), Some(7))]),
    };
    show(plan, &held.marked());
    close_put(plan, &before, Controls::NONE, &Demand { offset: 7, ids: 1, ..Demand::default() }, 0);
    add_opened(plan, &before);
}

/// The next cycle, behind which the even list stays if the next one is odd.
fn add_opened(plan: &mut Plan, before: &ClockNumbers) {
    let held = closed(before, 0);
    let cycle = before.cycle + 1;
    put(plan, &held);
    open(plan, cycle);
    let even = if cycle == 9 { held.lists[0] } else { ListNumbers::default() };
    show(plan, &ClockNumbers { open: true, cycle, lists: [even, ListNumbers::default()], ..held });
}
