//! States in which marks are wrong: one alone at every place of both lists, in every bit, and many together.

use super::super::soundness::{add_repaired, add_unsound, Pair, MEASURED};
use super::MARKS;
use crate::channel::Channel;
use crate::clock_numbers::{ClockNumbers, ListNumbers};
use crate::clock_scene::{list, open_at, row, wide_settings};
use crate::plan::Plan;
use crate::random::Random;
use crate::sheet_mark::SheetMark;
use crate::sync_list::PLACES;

/// The sheet's mark and a wrong one: the ends of all numbers and what lies beside them, and marks that differ in a half, in
/// the lowest or the highest bit, or in the order of bytes alone.
const WRONG: [[u32; 2]; 10] = [
    [0, 1],
    [0, u32::MAX],
    [1, 0],
    [u32::MAX, 0],
    [0x8765_4321, 0],
    [0x8765_4321, 0x8765_4320],
    [0x8765_4321, 0x0765_4321],
    [0x8765_4321, 0x0000_4321],
    [0x8765_4321, 0x8765_0000],
    [0x8765_4321, 0x2143_6587],
];

/// Where a measurement stands: list, row and channel.
type Place = (usize, usize, Channel);

pub(super) fn add(plan: &mut Plan, random: &mut Random) {
    for (turn, place) in places(PLACES).into_iter().enumerate() {
        let mark = MARKS[turn % MARKS.len()];
        let pair = one_wrong(PLACES, mark, mark.with_bit_turned(turn % 32), place);
        add_unsound(plan, random, &in_cycle(4 + place.1 as u8 % 2, &pair));
    }
    let mut pairs: Vec<Pair> = Vec::new();
    for place in places(3) {
        let [lowest, highest] = [0, 31].map(|bit| one_wrong(3, MARKS[2], MARKS[2].with_bit_turned(bit), place));
        add_unsound(plan, random, &closed(&lowest));
        pairs.extend([in_cycle(4, &lowest), in_cycle(5, &highest)]);
    }
    for [mark, wrong] in WRONG.map(|marks| marks.map(SheetMark)) {
        pairs.extend(places(1).into_iter().map(|place| one_wrong(1, mark, wrong, place)));
        pairs.extend([[1, 1], [2, 0], [0, 2], [3, 3]].map(|counts| all_agree(counts, mark, wrong)));
        pairs.extend([0, 1].map(|place| many_wrong(mark, wrong, |at, _| at == place)));
        pairs.extend(Channel::BOTH.map(|channel| many_wrong(mark, wrong, |_, on| on == channel)));
    }
    for pair in &pairs {
        add_unsound(plan, random, pair);
        add_repaired(plan, random, pair);
    }
}

/// Every place of two lists of so many rows.
fn places(rows: usize) -> Vec<Place> {
    let of_list = |list| (0..rows).flat_map(move |row| Channel::BOTH.map(|channel| (list, row, channel)));
    [0, 1].into_iter().flat_map(of_list).collect()
}

/// Rows that are seen on both channels, but for that of the ID that is measured, which may be in none of them.
fn rows(count: usize, measured: Option<usize>) -> ListNumbers {
    let mut rows: Vec<_> = (0..count).map(|place| row(200 + place as u16, Some(place as i32), Some(-2))).collect();
    if let Some(place) = measured {
        rows[place] = row(MEASURED, Some(3), None);
    }
    list(&rows)
}

/// A state in which an odd cycle is open, under a mark.
fn state(mark: SheetMark, lists: [ListNumbers; 2]) -> ClockNumbers {
    open_at(wide_settings(true).with_mark(mark), 5, lists)
}

/// The same lists in a cycle of either kind.
fn in_cycle(cycle: u8, Pair { sound, unsound }: &Pair) -> Pair {
    Pair { sound: ClockNumbers { cycle, ..*sound }, unsound: ClockNumbers { cycle, ..*unsound } }
}

/// The same lists where no cycle is open; without the wrong mark it would be 18, and an opening would be taken.
fn closed(Pair { sound, unsound }: &Pair) -> Pair {
    Pair { sound: ClockNumbers { open: false, ..*sound }, unsound: ClockNumbers { open: false, ..*unsound } }
}

/// So many rows in the list in question, and one row in the other.
fn one_wrong(count: usize, mark: SheetMark, wrong: SheetMark, (place, at, channel): Place) -> Pair {
    let mut lists = [rows(1, None); 2];
    // Where there is one row, the ID that is measured is a new one.
    lists[place] = rows(count, (count > 1).then_some((at + 1) % count));
    let sound = state(mark, lists);
    let mut unsound = sound;
    unsound.lists[place].rows[at].pair[usize::from(channel.number())] = wrong;
    Pair { sound, unsound }
}

/// All that is listed has the same mark, which isn't the sheet's.
fn all_agree(counts: [usize; 2], mark: SheetMark, wrong: SheetMark) -> Pair {
    let lists = counts.map(|count| rows(count, None));
    let listed = state(wrong, lists);
    Pair { sound: state(mark, lists), unsound: ClockNumbers { settings: listed.settings.with_mark(mark), ..listed } }
}

/// Two rows in each list, wrong in one list alone or on one channel alone.
fn many_wrong(mark: SheetMark, wrong: SheetMark, is_wrong: impl Fn(usize, Channel) -> bool) -> Pair {
    let sound = state(mark, [rows(2, None); 2]);
    let mut unsound = sound;
    for (place, at, channel) in places(2).into_iter().filter(|(place, _, channel)| is_wrong(*place, *channel)) {
        unsound.lists[place].rows[at].pair[usize::from(channel.number())] = wrong;
    }
    Pair { sound, unsound }
}
