//! The limit of different IDs in a cycle, and rows that a new ID takes over.

use crate::channel::Channel;
use crate::clock_history::{measure, put, refuse_measure, show, NO_TIME};
use crate::clock_numbers::{ClockNumbers, ListNumbers, RowNumbers};
use crate::clock_scene::{open_at, row_on, sync_status, wide_settings};
use crate::plan::Plan;
use crate::random::Random;
use crate::refusal::Refusal;
use crate::settings::{self, SYNC_ID_LIMIT};
use crate::sheet_mark::SheetMark;
use crate::sync_list::PLACES;

pub fn add(plan: &mut Plan, random: &mut Random) {
    let (lowest, highest) = settings::ends(SYNC_ID_LIMIT);
    for limit in lowest..=highest {
        for cycle in [26, 27] {
            let channel = random.pick(&Channel::BOTH);
            add_limit(plan, random, limit, cycle, channel);
        }
    }
    for channel in Channel::BOTH {
        add_from_the_first(plan, random, channel);
    }
}

/// A row that isn't looked at while it is not listed, and of which nothing stays when it is taken over.
const STRANGE: RowNumbers = RowNumbers {
    id: 0xABCD,
    seen: 3,
    deviations: [i32::MIN, 123_456],
    pair: [SheetMark(u32::MAX), SheetMark(654_321)],
};

/// The state with one place left in the open cycle's list.
fn nearly_full(limit: u32, cycle: u8, channel: Channel) -> ClockNumbers {
    let mut list = ListNumbers { count: limit as u8 - 1, rows: [STRANGE; PLACES] };
    for (place, row) in list.rows.iter_mut().enumerate().take(limit as usize - 1) {
        *row = row_on(100 + place as u16, channel, 1 - place as i32);
    }
    let full = ListNumbers { count: 2, rows: list.rows };
    let other = if limit > 2 { full } else { ListNumbers::default() };
    let lists = if cycle % 2 == 0 { [list, other] } else { [other, list] };
    open_at(wide_settings(false).with_field(SYNC_ID_LIMIT, limit), cycle, lists)
}

fn add_limit(plan: &mut Plan, random: &mut Random, limit: u32, cycle: u8, channel: Channel) {
    let place = usize::from(cycle % 2);
    let count = limit as usize;
    let mut held = nearly_full(limit, cycle, channel);
    put(plan, &held);
    measure(plan, &sync_status(random, channel, 9, cycle), NO_TIME, 0);
    held.lists[place].count += 1;
    held.lists[place].rows[count - 1] = row_on(9, channel, 0);
    show(plan, &held);
    for strange in [channel, channel.other()] {
        refuse_measure(plan, &held, &sync_status(random, strange, 10, cycle), Refusal::ListFull);
    }
    for id in [100, 9] {
        refuse_measure(plan, &held, &sync_status(random, channel, id, cycle), Refusal::MeasuredAlready);
        measure(plan, &sync_status(random, channel.other(), id, cycle), NO_TIME, 0);
        let row = held.lists[place].rows.iter_mut().find(|row| row.id == id).expect("the ID is listed");
        row.seen = 3;
        show(plan, &held);
        refuse_measure(plan, &held, &sync_status(random, channel.other(), id, cycle), Refusal::MeasuredAlready);
    }
}

/// 01: limit 15, fifteenth ID taken, sixteenth 15, a listed ID on the other channel taken. From an empty list on.
fn add_from_the_first(plan: &mut Plan, random: &mut Random, channel: Channel) {
    let mut held = open_at(wide_settings(true), 50, Default::default());
    put(plan, &held);
    for place in 0..PLACES {
        let id = 1000 - 60 * place as u16;
        measure(plan, &sync_status(random, channel, id, 50), NO_TIME, 0);
        held.lists[0].count += 1;
        held.lists[0].rows[place] = row_on(id, channel, 0);
    }
    show(plan, &held);
    refuse_measure(plan, &held, &sync_status(random, channel, 1, 50), Refusal::ListFull);
    measure(plan, &sync_status(random, channel.other(), 160, 50), NO_TIME, 0);
    held.lists[0].rows[PLACES - 1].seen = 3;
    show(plan, &held);
}
