//! Every number of values for both terms, with the midpoint known by the way in which the values are put together.

use crate::clock_history::{close_put, Demand};
use crate::clock_numbers::RowNumbers;
use crate::clock_scene::{list, open_at, row, some_ids, wide_settings};
use crate::closing::Controls;
use crate::plan::Plan;
use crate::random::Random;
use crate::sync_list::PLACES;

/// 01 "Clock": how many are discarded at each end of 1, 2, 3 and so on values.
const DISCARDED: [usize; PLACES + 1] = [0, 0, 1, 1, 1, 1, 1, 2, 2, 2, 2, 2, 2, 2, 2, 2];

/// The smallest and largest value left, and half their sum; all sums are odd.
const LEFT: [(i32, i32, i64); 6] = [(-25, 8, -8), (-8, 25, 8), (-30, -13, -21), (13, 30, 21), (-17, 0, -8), (0, 17, 8)];

pub fn add(plan: &mut Plan, random: &mut Random) {
    for count in 1..=PLACES + 1 {
        for (place, (lowest, highest, half)) in LEFT.into_iter().enumerate() {
            for own in [false, true] {
                let (highest, half) = if alone(count) { (lowest, lowest.into()) } else { (highest, half) };
                let Some(values) = received(random, count, lowest, highest, own) else {
                    continue;
                };
                // In turn, to keep the script short.
                match (count + place) % 2 {
                    0 => add_offset(plan, random, &values, own, half),
                    _ => add_rate(plan, random, &values, own, half),
                }
            }
        }
    }
}

/// Whether one value alone is left.
fn alone(count: usize) -> bool {
    count == 2 * DISCARDED[count - 1] + 1
}

/// So many values of which those left go from lowest to highest, without the node's own zero if that is one of them.
fn received(random: &mut Random, count: usize, lowest: i32, highest: i32, own: bool) -> Option<Vec<i32>> {
    let ends = DISCARDED[count - 1];
    let mut left = vec![lowest];
    if !alone(count) {
        left.push(highest);
        left.extend((0..count - 2 * ends - 2).map(|_| between(random, lowest, highest)));
    }
    let below = (0..ends).map(|place| if lowest > 0 && place == 0 { 0 } else { lowest - random.below(40) as i32 });
    let mut values: Vec<i32> = below.collect();
    values.extend((0..ends).map(|place| if highest < 0 && place == 0 { 0 } else { highest + random.below(40) as i32 }));
    values.extend(left);
    if own {
        let zero = values.iter().position(|value| *value == 0)?;
        values.remove(zero);
    }
    random.shuffle(&mut values);
    (1..=PLACES).contains(&values.len()).then_some(values)
}

/// 0 where it is between them, so that the node's own value can be one of these.
fn between(random: &mut Random, lowest: i32, highest: i32) -> i32 {
    if random.coin() && lowest < 0 && highest > 0 {
        return 0;
    }
    lowest + random.below((highest - lowest) as usize + 1) as i32
}

fn add_offset(plan: &mut Plan, random: &mut Random, values: &[i32], own: bool, half: i64) {
    let ids = some_ids(random, values.len());
    let rows: Vec<RowNumbers> = ids.iter().zip(values).map(|(id, value)| offset_row(random, *id, *value)).collect();
    let odd = random.coin();
    let lists = if odd { [list(&[]), list(&rows)] } else { [list(&rows), list(&[])] };
    let before = open_at(wide_settings(own), 40 + u8::from(odd), lists);
    let demand = Demand { offset: half, rate_missing: odd, ids: rows.len(), ..Demand::default() };
    close_put(plan, &before, Controls::NONE, &demand, 0);
}

/// The smaller of two counts, so that the larger may be any.
fn offset_row(random: &mut Random, id: u16, value: i32) -> RowNumbers {
    let larger = value + random.below(50) as i32;
    match random.below(4) {
        0 => row(id, Some(value), None),
        1 => row(id, None, Some(value)),
        2 => row(id, Some(value), Some(larger)),
        _ => row(id, Some(larger), Some(value)),
    }
}

/// Odd deviations of 0, so that the offset is 0 and the even ones make the differences.
fn add_rate(plan: &mut Plan, random: &mut Random, values: &[i32], own: bool, half: i64) {
    let ids = some_ids(random, values.len());
    let even: Vec<RowNumbers> = ids.iter().zip(values).map(|(id, value)| rate_row(random, *id, *value)).collect();
    let on = |row: &RowNumbers, bit: u8| (row.seen & bit != 0).then_some(0);
    let mut odd: Vec<RowNumbers> = even.iter().map(|even| row(even.id, on(even, 1), on(even, 2))).collect();
    random.shuffle(&mut odd);
    let before = open_at(wide_settings(own), 41, [list(&even), list(&odd)]);
    let demand = Demand { rate: half, ids: odd.len(), ..Demand::default() };
    close_put(plan, &before, Controls::NONE, &demand, half);
}

/// Of two channels half the sum counts; where it is odd, the fraction goes toward zero.
fn rate_row(random: &mut Random, id: u16, value: i32) -> RowNumbers {
    let apart = random.below(50) as i32;
    // One more away from zero makes the sum odd, and its half the same.
    let more = if random.coin() { value.signum() } else { 0 };
    match random.below(3) {
        0 => row(id, Some(-value), None),
        1 => row(id, None, Some(-value)),
        _ => row(id, Some(-value - apart - more), Some(-value + apart)),
    }
}
