//! What a script must reach of checksums that are told and kept.

use crate::cases::{OF_HEADER, OF_TRAILER, WRONG_CHECKSUM_SIZES};
use crate::draft::FOREIGN_CHANNELS;
use crate::frame::{HEADER_BYTES, LARGEST_FRAME, SMALLEST_FRAME};
use crate::reached::choices::any;

/// Either number alone, both, and the same twice.
const LOOKS: &str = "found alone|expected alone|equal|different";

/// By these letters 4 and 8 of frames of every size and with numbers of every length, and nothing beside the others.
pub(in crate::reached) fn of_frames(letters: &str) -> Vec<String> {
    let (sizes, foreign) = (any(WRONG_CHECKSUM_SIZES), any(FOREIGN_CHANNELS));
    let nothing = format!("<{letters}> tells nothing beside");
    let mut all = vec![
        format!("<{letters}> tells <4|8> of <{sizes}> bytes on <0|1>"),
        format!("{nothing} <0|3|5|6|7> on <0|1>, header and trailer wrong: [false, false]"),
        format!("{nothing} 3 on <0|1>, header and trailer wrong: <[true, false]|[false, true]|[true, true]>"),
        format!("{nothing} <5|6|7> on <0|1>, header and trailer wrong: [false, true]"),
        format!("{nothing} 1 on <{foreign}>, header and trailer wrong: <[true, false]|[false, true]|[true, true]>"),
        format!("{nothing} <1 on 2|1 on 255|2 on 0|2 on 1>"),
        // "refused 8", two numbers of eight digits, the blanks before them, and the line feed.
        "bench line of 28 bytes".to_string(),
    ];
    for (number, longest) in [(4, OF_HEADER.len() - 1), (8, OF_TRAILER.len() - 1)] {
        let told = format!("<R|P> tells {number} on <0|1>");
        all.push(format!("{told}, <1..{longest}> and <0..{longest}> digits"));
        all.push(format!("{told}, 0 and <1..{longest}> digits"));
    }
    all
}

pub(in crate::reached) fn required() -> Vec<String> {
    let mut all = of_frames("R|P|E");
    all.push("E tells nothing beside <24|25> on <0|1>, header and trailer wrong: [false, false]".to_string());
    all.extend(of_slots());
    all.extend(of_soundness());
    all.extend(of_wire());
    all
}

/// One refusal behind another, those that tell something behind themselves with other numbers, and frames among them.
fn of_slots() -> Vec<String> {
    const FRAME: &str = "good|missed";
    let sizes = any([SMALLEST_FRAME, 10, 136, LARGEST_FRAME]);
    let opened = "opened on <A|B>:";
    vec![
        format!("A tells <4|8> of <{sizes}> bytes on <0|1>"),
        format!("{opened} [<{FRAME}|2..8>], others later: false"),
        format!("{opened} [4, <2|3|4|5|6|7|8>], others later: true"),
        format!("{opened} [8, <2|3|4|5|6|7|8>], others later: true"),
        format!("{opened} [<2|3|5|6|7>, <4|8>], others later: true"),
        format!("{opened} [<2|3|5|6|7>, <2|3|5|6|7>], others later: false"),
        format!("{opened} [<4, 8, 4|8, 4, 8|4, 2, 4|8, 2, 8>], others later: true"),
        format!("{opened} [<4|8>, <{FRAME}>], others later: false"),
        format!("{opened} [<{FRAME}>, <4|8>], others later: false"),
        format!("{opened} [4, <{FRAME}>, 4], others later: true"),
        format!("{opened} [8, <{FRAME}>, 8], others later: true"),
        format!("put with <none|{LOOKS}> on <A|B>, syntax error: true: [<{FRAME}|2|3|4|8>]"),
        format!("put with <{LOOKS}> on <A|B>, syntax error: false: []"),
    ]
}

/// Every bit of either number alone, and all looks.
fn of_soundness() -> Vec<String> {
    vec![
        "<A|B|X> unsound by checksums <found|expected> bit <0..31>, syntax error: false".to_string(),
        "<A|B|X> sound with checksums <found|expected> bit <0..31>, syntax error: true".to_string(),
        format!("<A|B|X|M> unsound by checksums <{LOOKS}>, syntax error: false"),
        format!("<A|B|X> sound with checksums <none|{LOOKS}>, syntax error: true"),
        "<A|B|X> sound with checksums none, syntax error: false".to_string(),
        format!("M on <A|B> with checksums <{LOOKS}>, syntax error: false: 23"),
        format!("M on <A|B> with checksums <none|{LOOKS}>, syntax error: true: 0"),
        "M on <A|B> behind [<4|8>, good]: 0".to_string(),
    ]
}

/// Behind five bytes, at the end, and at the end by bytes that were not heard as the reader says.
fn of_wire() -> Vec<String> {
    let (fewest, most) = (SMALLEST_FRAME, LARGEST_FRAME);
    vec![
        format!("Y tells 4 of <{HEADER_BYTES}|{fewest}> bytes on <0|1>"),
        format!("Y tells 8 of <{fewest}|10|14|{most}> bytes on <0|1>"),
        "Y tells <4|8> on <0|1>, zeros: <[false, false]|[true, false]|[false, true]>".to_string(),
        "Y tells nothing beside <3|5|6|7|30..35>".to_string(),
    ]
}
