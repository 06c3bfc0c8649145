//! Script errors in the commands of the clock, and bytes in them that look wrong but are no error.

use super::{broken, bytes_of, with_byte, with_wrong_byte, Small, SENDS_SYNC, SETTINGS, STATUS_SHOWN};
use crate::clock::Times;
use crate::clock_numbers::{ClockNumbers, ListNumbers};
use crate::clock_scene::{list, row};
use crate::closing::Controls;
use crate::script::{Cause, Command};
use crate::settings::SYNC_ID_LIMIT;
use crate::sheet_mark::SheetMark;
use crate::sync_list::PLACES;

/// Where a byte stands in `K`, the letter at place 0.
pub const OPEN: usize = SENDS_SYNC + 1;
const CYCLE: usize = OPEN + 1;
pub const CLOSED: usize = CYCLE + 1;
const LAST: usize = CLOSED + 1;
const EVEN_COUNT: usize = LAST + 5;
const FIRST_SEEN: usize = EVEN_COUNT + 3;
const ODD_COUNT: usize = EVEN_COUNT + 1 + PLACES * ROW;
const MARK: usize = ODD_COUNT + 1 + PLACES * ROW;
const PAIRS: usize = MARK + 4;
const SIZE: usize = PAIRS + 2 * PLACES * PAIR;

/// The bytes of a row, and of the marks that belong to it.
const ROW: usize = 11;
const PAIR: usize = 8;

const CLOCK_LINE: &str =
    "clock 1 2 3 4 5 6 7 8 9 0 11 1 1 4 1 3 -6 EVEN 1 7 3 -8 9 ODD 0 305419896 EVEN 7 305419896 ODD\n";

/// Cycle 4 open with one ID seen on both channels, cycle 3 closed last.
fn clock() -> ClockNumbers {
    let lists = [list(&[row(7, Some(-8), Some(9))]), ListNumbers::default()];
    ClockNumbers { settings: SETTINGS, open: true, cycle: 4, closed: true, last: 3, rate: -6, lists }.marked()
}

/// The same with mark 7 on A, which isn't that of the settings.
fn wrongly_marked() -> ClockNumbers {
    let mut clock = clock();
    clock.lists[0].rows[0].pair[0] = SheetMark(7);
    clock
}

/// Commands of every letter with their lines, on the status in which a frame is kept that is no sync frame. The clock
/// state of all zeros is held before them and behind them.
pub(super) fn good_ones() -> Vec<(Command, String)> {
    let times = Times { observed: 9, action_point: 2 };
    let commands = [
        (Command::OpenCycle(255), "open 23\n"),
        (Command::Load(SETTINGS), "load 0 0\n"),
        (Command::Measure(times), "measure 18 0\n"),
        (Command::OpenCycle(4), "open 0\n"),
        (Command::Measure(times), "measure 20 0\n"),
        (Command::CloseCycle(Controls { offset: -128, rate: 127 }), "close 21 0 0 0 0 0 0 0 0\n"),
        (Command::put_clock(&wrongly_marked()), "clock put\n"),
        (Command::CloseCycle(Controls::NONE), "close 23 0 0 0 0 0 0 0 0\n"),
        (Command::put_clock(&clock()), "clock put\n"),
        (Command::CloseCycle(Controls { offset: 1, rate: -1 }), "close 0 4 -15 0 0 0 0 1 305419896\n"),
        (Command::Load(SETTINGS.with_field(SYNC_ID_LIMIT, 0)), "load 17 4\n"),
        (Command::CloseCycle(Controls::NONE), "close 23 0 0 0 0 0 0 0 0\n"),
    ];
    commands.map(|(command, line)| (command, line.to_string())).into()
}

/// Every place at which the shorter commands can be cut off, and for `K` all up to the first row, some in the rows and in
/// their pairs, and all in the mark and in the first and last pair.
pub(super) fn ends_inside() -> Vec<Small> {
    let times = Times { observed: 9, action_point: 2 };
    let shorter =
        [Command::Load(SETTINGS), Command::OpenCycle(4), Command::Measure(times), Command::CloseCycle(Controls::NONE)];
    let mut all = Vec::new();
    for script in shorter.map(|command| bytes_of(&command)) {
        all.extend((1..script.len()).map(|size| broken(Cause::EndInside, &script[..size])));
    }
    // Rows that are not listed must be there as well, and so must their marks.
    let put = bytes_of(&Command::put_clock(&clock()));
    let in_rows = (EVEN_COUNT + 1..MARK - 1).filter(|size| size % ROW < 2).chain([ODD_COUNT, ODD_COUNT + 1]);
    let in_pairs = (PAIRS + PAIR..SIZE - PAIR).filter(|size| matches!((size - PAIRS) % PAIR, 0 | 1 | 5));
    let in_marks = (MARK - 1..PAIRS + PAIR).chain(in_pairs).chain(SIZE - PAIR..SIZE);
    all.extend((1..=EVEN_COUNT).chain(in_rows).chain(in_marks).map(|size| broken(Cause::EndInside, &put[..size])));
    all
}

/// Switches that are neither 0 nor 1.
pub(super) fn wrong_switches() -> Vec<Small> {
    let (load, put) = (Command::Load(SETTINGS), Command::put_clock(&clock()));
    let off = Command::put_clock(&ClockNumbers { open: false, closed: false, ..clock() });
    let mut all = Vec::new();
    for (command, place) in
        [(&load, SENDS_SYNC), (&put, SENDS_SYNC), (&put, OPEN), (&put, CLOSED), (&off, OPEN), (&off, CLOSED)]
    {
        all.extend([2, 3, 128, 255].map(|byte| with_wrong_byte(command, place, byte, Cause::WrongSwitch)));
    }
    all
}

/// Cycles, counts, marks and unnamed bits may be any; those that break the rules are put as well.
pub(super) fn no_errors() -> Vec<Small> {
    let put = Command::put_clock(&wrongly_marked());
    let off = Command::put_clock(&ClockNumbers { open: false, closed: false, ..wrongly_marked() });
    let off_line = CLOCK_LINE.replace("1 4 1 3 -6", "0 0 0 0 -6");
    let with =
        |parts: &[[&str; 2]]| parts.iter().fold(CLOCK_LINE.to_string(), |line, [from, to]| line.replace(from, to));
    let [rows, pairs] =
        [("ODD 255", " 0 0 0 0"), ("ODD", " 0 0")].map(|(start, each)| start.to_string() + &each.repeat(PLACES));
    let cases = [
        (&put, CYCLE, 255, with(&[["1 4 1 3", "1 255 1 3"]])),
        (&put, LAST, 64, with(&[["1 4 1 3", "1 4 1 64"]])),
        (&put, EVEN_COUNT, 0, with(&[["EVEN 1 7 3 -8 9", "EVEN 0"], ["EVEN 7 305419896", "EVEN"]])),
        (&put, ODD_COUNT, 255, with(&[["ODD 0", &rows], ["ODD\n", &(pairs + "\n")]])),
        (&put, FIRST_SEEN, 0b1111_1101, with(&[["7 3 -8 9", "7 1 -8 0"], ["7 305419896", "7 0"]])),
        (&put, FIRST_SEEN, 0b1000_0010, with(&[["7 3 -8 9", "7 2 0 9"], ["7 305419896", "0 305419896"]])),
        (&put, FIRST_SEEN, 0b1000_0000, with(&[["7 3 -8 9", "7 0 0 0"], ["7 305419896", "0 0"]])),
        (&off, CYCLE, 255, off_line.clone()),
        (&off, LAST, 2, off_line),
        (&put, MARK, 0xFF, with(&[["305419896 EVEN", "305420031 EVEN"]])),
        (&put, MARK + 3, 0xFF, with(&[["305419896 EVEN", "4281620088 EVEN"]])),
        (&put, PAIRS, 0xFF, with(&[["7 305419896", "255 305419896"]])),
        (&put, PAIRS + 3, 0x80, with(&[["7 305419896", "2147483655 305419896"]])),
        (&put, PAIRS + 4, 0, with(&[["7 305419896", "7 305419776"]])),
        // Those of the second row, which isn't listed, and of the first one of the odd list.
        (&put, PAIRS + PAIR, 0xFF, CLOCK_LINE.to_string()),
        (&put, PAIRS + PLACES * PAIR, 0xFF, CLOCK_LINE.to_string()),
    ];
    let shown =
        |(command, place, byte, line)| with_byte(command, place, byte, &format!("clock put\n{line}{STATUS_SHOWN}"));
    cases.map(shown).into()
}
