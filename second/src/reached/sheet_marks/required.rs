//! What must be reached of marks.

use super::super::choices::any;
use crate::cases::clock::MARKS;
use crate::settings::{self, FIELDS};
use crate::sync_list::PLACES;

/// All of it with both ends of all numbers, with the mark beside the lowest and with one whose bytes are all different.
pub(in super::super) fn required() -> Vec<String> {
    let mut all: Vec<String> = [
        "Opened: even list kept under mark <MARKS>",
        "Opened: <last of|one more than> <2|15> under mark <MARKS>",
        "Opened clock under mark <MARKS>, <Opened|Put> status under mark <MARKS>: on <A|B> in list <0|1>",
        "Opened: an even cycle closed under mark <MARKS>, offset missing: <false|true>, rate missing: false",
        "Opened: an odd cycle closed under mark <MARKS>, offset missing: false, rate missing: <false|true>",
        "Put: <an even|an odd> cycle closed under mark <MARKS>, offset missing: false, rate missing: false",
        "O refused by <23|11|19> under mark <MARKS> with lists [0, 1]",
        "M refused by <23|18|14|20|22|16|15> under mark <MARKS> with lists [0, 1]",
        "C refused by <23|18|21> under mark <MARKS> with lists [0, 1]",
        "<A|B|X> on a status under mark <MARKS>: <0|23>",
        "S of a sheet with mark <MARKS>: <1|9|11> 0",
    ]
    .map(str::to_string)
    .into();
    all.extend(of_sheets());
    all.extend(of_loads());
    all.extend(of_wrong_marks());
    all.extend(of_unlooked_marks());
    let marks = any(MARKS);
    all.into_iter().map(|text| text.replace("MARKS", &marks)).collect()
}

/// Every field at the ends of its range and beyond them: the answer is the same with every mark.
fn of_sheets() -> Vec<String> {
    let mut all = vec![
        "<L|S> of a sheet with mark <MARKS>: 0 0".to_string(),
        format!("<L|S> of a sheet with mark <MARKS>: 17 <1..{FIELDS}>"),
    ];
    for field in 1..=FIELDS {
        let (lowest, highest) = settings::ends(field);
        let beyond = any(settings::beyond(field).into_iter().map(|(value, _)| value));
        let sheet = format!("<L|S> of a sheet with mark <MARKS> and field {field} of");
        all.push(format!("{sheet} <{lowest}|{highest}>: 0"));
        all.push(format!("{sheet} <{beyond}>: 17"));
    }
    all
}

/// A load leaves nothing of what was listed, also one with the same mark, or of the very same sheet.
fn of_loads() -> Vec<String> {
    const SHEETS: &str = "<the same mark, the same fields|the same mark, other fields|another mark, other fields>";
    let behind = [
        ("an even", "an even cycle opened"),
        ("an even", "measured once more on <A|B>"),
        ("an even", "an even cycle closed, offset missing: false, rate missing: false"),
        ("an even", "an odd cycle closed, offset missing: false, rate missing: false"),
        ("<an odd|no>", "an odd cycle opened"),
        ("<an odd|no>", "measured once more on <A|B>"),
        ("<an odd|no>", "an odd cycle closed, offset missing: false, rate missing: true"),
        ("an odd", "an even cycle closed, offset missing: true, rate missing: false"),
    ];
    behind.map(|(cycle, what)| format!("load in {cycle} cycle, {SHEETS}: {what}")).into()
}

/// One alone in every place of a whole list, in the first, the middle and the last row of another one, in a row that is alone
/// and in every bit; and many together.
fn of_wrong_marks() -> Vec<String> {
    let last = PLACES - 1;
    let all = [
        &format!("list <0|1> row <0..{last}> of {PLACES} has another mark on <A|B>"),
        "list <0|1> row <0..2> of 3 has another mark on <A|B>",
        "list <0|1> row 0 of 1 has another mark on <A|B>",
        "one mark, bit <0..31> alone",
        "one mark of list <0|1> on <A|B>, <no|an even> cycle open, bit 0 alone",
        "one mark of list <0|1> on <A|B>, an odd cycle open, bit 31 alone",
        "<one mark|marks that agree in lists [0, 1]>, <0 under 4294967295|4294967295 under 0|0 under 1|1 under 0>",
        "marks that agree in lists <[0]|[1]|[0, 1]>, <bit 0 alone|bit 31 alone|many bits>",
        "all marks <of list 0|of list 1|on A|on B>, <bit 0 alone|bit 31 alone|many bits>",
    ];
    all.iter().map(|text| format!("<O|M|C> unsound by {text}")).collect()
}

fn of_unlooked_marks() -> Vec<String> {
    let all = [
        "<O|M|C> beside another mark in list <0|1>, right behind the count on <A|B>",
        "<O|M|C> beside another mark in list <0|1>, in the last row on <A|B>",
        "<O|M|C> beside another mark in list <0|1>, behind a clear bit on <A|B>, unnamed ones: <false|true>",
        "<row|channel> with another mark taken over on <A|B> in list <0|1>",
    ];
    let mut all: Vec<String> = all.map(str::to_string).into();
    all.push(format!("<M|C> sound with list <0|1> row <0..{}> of {PLACES} has the sheet's mark on <A|B>", PLACES - 1));
    all
}
